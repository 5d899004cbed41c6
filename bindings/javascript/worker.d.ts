import type {
  Answer, Documents, Format, Instance, Limits, Module, Output, Rewriting, Text, Upgrading, ValidationError,
} from "./index.js";

/** Schemas in a worker. Each call waits for those before it; at its time limit it is answered with `Stopped`. */
export class WorkerSchemas {
  private constructor();
  /** `seconds` limits each later call (10 without it). */
  static create(
    documents: Documents,
    options?: { seconds?: number; module?: Module } & Limits & Upgrading & Rewriting,
  ): Promise<WorkerSchemas>;
  places(): Promise<string[]>;
  isValid(entry: string, instance: Instance): Promise<boolean>;
  errors(entry: string, instance: Instance): Promise<ValidationError[]>;
  output(entry: string, instance: Instance, format?: Format): Promise<Output>;
  outputText(entry: string, instance: Instance, format?: Format): Promise<string>;
  check(entry: string, instance: Instance, format?: Format): Promise<Answer>;
  positions(instance: Instance): Promise<Text>;
  originalLocation(absoluteKeywordLocation: string): Promise<string>;
  writtenSchema(absoluteKeywordLocation: string): Promise<string | undefined>;
  /** Ends the worker. */
  close(): void;
}
