/** The keywords of each dialect. */
import { DRAFTS, LATEST } from "./dialects.js";
import { INSTEAD, KEYWORDS } from "./keyword_table.js";

export { KEYWORDS };

/** Whether a keyword is one of a dialect. */
export function acts(keyword, dialect) {
  const span = KEYWORDS.get(keyword);
  return span !== undefined && span[0] <= dialect && dialect <= span[1];
}

/** Why a keyword of another dialect can't act in this one; undefined if it is of this one, or of none. */
export function stranger(keyword, dialect) {
  const span = KEYWORDS.get(keyword);
  if (span === undefined || acts(keyword, dialect)) return undefined;
  const [first, last] = span.map((it) => DRAFTS[it]);
  const since = first === last ? `is of ${first}` : `is of ${first} to ${last}`;
  const instead = dialect === LATEST && INSTEAD.has(keyword) ? `: use ${INSTEAD.get(keyword)}` : "";
  return `\`${keyword}\` ${since}, and can't act in ${DRAFTS[dialect]}${instead}`;
}
