/** The panels beside the list of errors: none of them is needed for the first verdict. */
import { CondensingPanel } from "./condensing_panel.js";
import { OutputPanel } from "./output_panel.js";
import { ResultPanel } from "./result_panel.js";

/**
 * Each panel by its key. `chosen` is called with a node of the result, `changed` with what else is to be shown.
 *
 * @param {{ chosen: (node: object) => void, changed: (what: { format?: string, isMerging?: boolean }) => void }} how
 */
export function otherPanels({ chosen, changed }) {
  return {
    tree: new ResultPanel({ chosen }),
    condensing: new CondensingPanel({ chosen, changed: (isMerging) => changed({ isMerging }) }),
    output: new OutputPanel({ changed: (format) => changed({ format }) }),
  };
}
