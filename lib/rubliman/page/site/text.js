// Numbers, bytes and source lines as text.

export const hex = (value, digits = 8) => value.toString(16).toUpperCase().padStart(digits, "0");

export const counted = (number) => number.toLocaleString("en");

/** A few of a thing: "1 word", "3 words". */
export const several = (number, name) => `${counted(number)} ${name}${number === 1 ? "" : "s"}`;

export const isPrinted = (byte) => byte >= 0x20 && byte < 0x7f;

export const character = (byte) => (isPrinted(byte) ? String.fromCharCode(byte) : "·");

/** Bytes as a user would type them: \n, \xNN and text. */
export const typed = (bytes) =>
  bytes
    .map((byte) => {
      if (byte === 10) return "\\n";
      if (byte === 0x5c) return "\\\\";
      return isPrinted(byte) ? String.fromCharCode(byte) : `\\x${hex(byte, 2)}`;
    })
    .join("");

/** The bytes of what a user typed: text, \n, \r, \t, \\ and \xNN. Text beyond ASCII is its bytes in UTF-8. */
export function bytesTyped(text) {
  const named = { n: 10, r: 13, t: 9, "\\": 92 };
  const found = [];
  for (const [, code, letter, plain] of text.matchAll(/\\x([0-9a-f]{2})|\\([nrt\\])|([^])/gi)) {
    if (code) found.push(parseInt(code, 16));
    else if (letter) found.push(named[letter.toLowerCase()]);
    else found.push(...new TextEncoder().encode(plain));
  }
  return found;
}

/** The bytes of hexadecimal digits, two each. */
export const bytesOf = (digits) => (digits.match(/../g) ?? []).map((it) => parseInt(it, 16));

const STATEMENT = /^(?:[^"'!]|"(?:[^"\\]|\\.)*"?|'(?:[^'\\]|\\.)?'?)*/;

/** The length of a line without its remark. */
export const statementLength = (line) => STATEMENT.exec(line)[0].length;

/** A line's label and statement, blanks as one. */
export const statement = (line) => line.slice(0, statementLength(line)).replace(/\s+/g, " ").trim();

/** A line's remark, without its mark. */
export const remark = (line) => line.slice(statementLength(line)).replace(/^!\s*/, "").trim();

/** Tabs as blanks, to multiples of eight. */
export function untabbed(line) {
  let found = "";
  for (const it of line) found += it === "\t" ? " ".repeat(8 - (found.length % 8)) : it;
  return found;
}
