/** The schema documents that the arguments name, and those that they refer to. */
import { existsSync } from "node:fs";
import { LATEST, dialectCalled } from "../dialects.js";
import { Misuse, isFile, isFolder } from "./files.js";
import { Lookup, schemaFile } from "./lookup.js";
import { suffixKind } from "./sources.js";
import { writeError } from "./writing.js";

/** The schema that is named, and the documents that it refers to. */
export function documentsOf(given) {
  const assumed = given.defaultDialect === undefined ? LATEST : dialectCalled(given.defaultDialect);
  const schema = document(given.schema, "--schema", given.input, assumed);
  return [schema, ...referred([schema], given, assumed)];
}

/** The documents of `--ref`, and those that are found in its folders and beside the files. */
export function referred(files, { refs, siblings, input, verbose }, assumed = LATEST) {
  const folders = refs.filter(isFolder);
  const named = refs.filter((it) => !folders.includes(it)).map((it) => document(it, "--ref", input, assumed));
  const taken = new Lookup(folders, siblings, assumed).taken([...files, ...named]);
  for (const { file, referring } of verbose ? taken : []) {
    writeError(`jschema: ${file.path} is taken for ${file.uri}, which ${referring} refers to\n`);
  }
  return [...named, ...taken.map((it) => it.file)];
}

/** The document that the argument `[URI=]FILE` of an option names. */
function document(argument, option, input, assumed) {
  const mark = argument.lastIndexOf("=");
  const before = argument.slice(0, Math.max(mark, 0));
  // (A URI that is absolute has a colon.)
  const [uri, path] = !before.includes(":") || isFile(argument) ? ["", argument] : [before, argument.slice(mark + 1)];
  checkName(path, option);
  return schemaFile(path, { uri, kind: suffixKind(path) ?? input, assumed });
}

function checkName(path, option) {
  if (path === "") throw new Misuse(`${option} has an empty name: is a variable of the shell empty?`);
  if (path.includes("://") && !existsSync(path)) {
    throw new Misuse(`nothing is fetched: save ${path} as a file, and name that; for a document that others refer ` +
      `to, --ref ${path}=FILE`);
  }
  if (isFolder(path)) {
    throw new Misuse(`${path} is a folder: name the file of one schema after ${option}` +
      (option === "--ref" ? "" : ", and others after --ref"));
  }
}
