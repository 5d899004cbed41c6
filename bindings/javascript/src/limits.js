/** The limits that hold before the module is asked, and those that a caller may set. */

/** The most bytes that a text may have: a schema document, or an instance. */
export const LARGEST_TEXT = 16_777_216;

/** The most arrays and objects of a text in one another. */
export const DEEPEST = 127;

/** The most nested schema applications, the entry's included, and the most nodes of a result. */
export const STANDARD_LIMITS = Object.freeze({ applications: 512, nodes: 1_000_000 });

/** The limits that options set. Throws `RangeError` for those beyond the standard ones. */
export function limitsOf({ applications = STANDARD_LIMITS.applications, nodes = STANDARD_LIMITS.nodes }) {
  const expect = (name, value, least) => {
    const most = STANDARD_LIMITS[name];
    if (Number.isInteger(value) && value >= least && value <= most) return;
    throw new RangeError(`${name} is an integer from ${least} to ${counted(most)}`);
  };
  expect("applications", applications, 1);
  expect("nodes", nodes, 0);
  return { applications, nodes };
}

/** What a result that is too large has. */
export function beyond({ applications, nodes }) {
  const nested = `more than ${counted(applications)} nested schema applications`;
  return `${nested}, or more than ${counted(nodes)} nodes of the result`;
}

function counted(number) {
  return number.toLocaleString("en");
}
