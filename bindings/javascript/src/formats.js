/**
 * Strings that break the `format` of a valid result. The validator takes `format` as an annotation, so this changes no
 * verdict.
 */
import { schemaSteps, steps } from "./locations.js";
import { valueAt } from "./resources.js";

/** A regular expression for a whole text. */
function whole(pattern) {
  return new RegExp(`^(?:${pattern})$`, "s");
}

/** Alternatives of a regular expression. */
function oneOf(...patterns) {
  return `(?:${patterns.join("|")})`;
}

// Dates, times and durations: RFC 3339, 5.6 and appendix A.
const DATE = /^([0-9]{4})-([0-9]{2})-([0-9]{2})$/;
const HOUR = "[01][0-9]|2[0-3]", MINUTE = "[0-5][0-9]";
const TIME = whole(`(${HOUR}):(${MINUTE}):(${MINUTE}|60)(?:\\.[0-9]+)?(?:[Zz]|([+-])(${HOUR}):(${MINUTE}))`);
const SECONDS = "[0-9]+S", MINUTES = `[0-9]+M(?:${SECONDS})?`, HOURS = `[0-9]+H(?:${MINUTES})?`;
const DAYS = "[0-9]+D", MONTHS = `[0-9]+M(?:${DAYS})?`, YEARS = `[0-9]+Y(?:${MONTHS})?`;
const OF_TIME = `T${oneOf(HOURS, MINUTES, SECONDS)}`;
const DURATION = whole(`P${oneOf("[0-9]+W", OF_TIME, `${oneOf(YEARS, MONTHS, DAYS)}(?:${OF_TIME})?`)}`);
const DATE_LENGTH = "2000-01-01".length, MINUTES_OF_DAY = 24 * 60, LEAP_SECOND = "60";

// Names of hosts: RFC 1123, 2.1; with a dot at the end as RFC 1034, 3.1, has it.
const LABEL = "(?!-)[A-Za-z0-9-]{1,63}(?<!-)";
const HOST_NAME = whole(`(?:${LABEL}\\.)*${LABEL}\\.?`), LONGEST_NAME = 253;

// Addresses and URIs: RFC 3986, 3 and appendix A.
const OCTET = oneOf("25[0-5]", "2[0-4][0-9]", "1[0-9]{2}", "[1-9]?[0-9]");
const IPV4 = `${OCTET}(?:\\.${OCTET}){3}`;
const GROUP = "[0-9A-Fa-f]{1,4}", LAST_GROUPS = oneOf(`${GROUP}:${GROUP}`, IPV4);
/** Up to so many groups, and the sign for those that are zero. */
const upTo = (count) => count === 0 ? "::" : `(?:(?:${GROUP}:){0,${count - 1}}${GROUP})?::`;
const IPV6 = oneOf(`(?:${GROUP}:){6}${LAST_GROUPS}`,
  ...[0, 1, 2, 3, 4, 5].map((before) => `${upTo(before)}(?:${GROUP}:){${5 - before}}${LAST_GROUPS}`),
  `${upTo(6)}${GROUP}`, upTo(7));
const PERCENT = "%[0-9A-Fa-f]{2}", SAFE = "A-Za-z0-9\\-._~!$&'()*+,;=";
const CHARACTER = oneOf(`[${SAFE}:@]`, PERCENT), SEGMENTS = `(?:/${CHARACTER}*)*`;
const HOST = oneOf(`\\[${oneOf(IPV6, `[vV][0-9A-Fa-f]+\\.[${SAFE}:]+`)}\\]`, `(?:[${SAFE}]|${PERCENT})*`);
const AUTHORITY = `(?:(?:[${SAFE}:]|${PERCENT})*@)?${HOST}(?::[0-9]*)?`;
const ROOTED = oneOf(`//${AUTHORITY}${SEGMENTS}`, `/(?:${CHARACTER}+${SEGMENTS})?`);
const END = `(?:\\?(?:${CHARACTER}|[/?])*)?(?:#(?:${CHARACTER}|[/?])*)?`;
const URI = `[A-Za-z][A-Za-z0-9+.\\-]*:(?:${ROOTED}|${CHARACTER}+${SEGMENTS})?${END}`;
const RELATIVE = `(?:${ROOTED}|(?:[${SAFE}@]|${PERCENT})+${SEGMENTS})?${END}`;

// RFC 4122, 3, and RFC 6901, 3.
const UUID = /^[0-9a-f]{8}(?:-[0-9a-f]{4}){3}-[0-9a-f]{12}$/i;
const POINTER = /^(?:\/(?:[^~/]|~[01])*)*$/s;

const matching = (expression) => (text) => expression.test(text);

/** The formats that are checked: whether a string is of one. */
export const CHECKS = new Map(Object.entries({
  date: isDate,
  "date-time": (text) => /^[Tt]$/.test(text[DATE_LENGTH]) && isDate(text.slice(0, DATE_LENGTH))
    && isTime(text.slice(DATE_LENGTH + 1)),
  time: isTime,
  email: (text) => text.includes("@"),
  hostname: (text) => HOST_NAME.test(text) && text.replace(/\.$/, "").length <= LONGEST_NAME,
  ipv4: matching(whole(IPV4)),
  ipv6: matching(whole(IPV6)),
  uri: matching(whole(URI)),
  "uri-reference": matching(whole(oneOf(URI, RELATIVE))),
  uuid: matching(UUID),
  "json-pointer": matching(POINTER),
  regex: isRegularExpression,
  duration: matching(DURATION),
}));

/** Whether a string is of a format. One that isn't known is never broken, nor by a string that is too long for it. */
export function holds(format, text) {
  const check = CHECKS.get(format);
  try {
    return check === undefined || check(text);
  } catch (error) {
    // (Of many megabytes: the stack of regular expressions is exceeded.)
    if (error instanceof RangeError) return true;
    throw error;
  }
}

/**
 * The strings of a valid instance that break a format, by the annotations in its `basic` output.
 *
 * @param {import("../index.js").Output} output @param {unknown} instance
 * @returns {{ message: string, instanceLocation: string, absoluteKeywordLocation: string }[]}
 */
export function broken({ annotations = [] }, instance) {
  return annotations.filter(({ annotation, keywordLocation, instanceLocation }) => {
    const { token, isKeyword } = schemaSteps(keywordLocation).at(-1);
    if (token !== "format" || !isKeyword || typeof annotation !== "string") return false;
    const text = valueAt(instance, steps(instanceLocation));
    return typeof text === "string" && !holds(annotation, text);
  }).map(({ annotation, instanceLocation, absoluteKeywordLocation }) =>
    ({ message: `breaks the format ${annotation}`, instanceLocation, absoluteKeywordLocation }));
}

function isDate(text) {
  const found = DATE.exec(text);
  if (found === null) return false;
  const [year, month, day] = found.slice(1).map(Number);
  const isLeap = year % 4 === 0 && (year % 100 !== 0 || year % 400 === 0);
  const lengths = [31, isLeap ? 29 : 28, 31, 30, 31, 30, 31, 31, 30, 31, 30, 31];
  return day >= 1 && day <= (lengths[month - 1] ?? 0);
}

/** (A leap second is the last one of a day in UTC.) */
function isTime(text) {
  const found = TIME.exec(text);
  if (found === null) return false;
  const [, hours, minutes, seconds, sign = "+", ofHours = 0, ofMinutes = 0] = found;
  if (seconds !== LEAP_SECOND) return true;
  const offset = (Number(ofHours) * 60 + Number(ofMinutes)) * (sign === "-" ? -1 : 1);
  const minute = Number(hours) * 60 + Number(minutes) - offset;
  return (minute + MINUTES_OF_DAY) % MINUTES_OF_DAY === MINUTES_OF_DAY - 1;
}

function isRegularExpression(text) {
  try {
    return Boolean(new RegExp(text, "u"));
  } catch {
    return false;
  }
}
