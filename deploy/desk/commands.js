// The lines that the desk would type next, for a shell in the folder of the operator's certificate. REF and ID are to be
// replaced: a new reference, and the id of the deposit.
import { AGENT } from "./asking.js";

const quoted = (text) => (/^[\w:/.@-]+$/.test(text) ? text : `'${text.replaceAll("'", `'\\''`)}'`);
const curl = (path, ...words) =>
  ["curl", "--cert", "operator.pem", "--key", "operator.key", ...words.map(quoted), quoted(AGENT + path)].join(" ");
const put = (path, body) => curl(path, "-X", "PUT", "-d", JSON.stringify(body));

export const state = ({ day, kind, revision, count, tld }) =>
  curl("statements", "-d", JSON.stringify({ date: day, id: "ID", kind, parts: count, revision, tld }));
export const send = (name) => curl("deposits/", "-T", name);
export const check = ({ tld, day }) => curl(`checks/${tld}/${day}`, "-d", "");
export const hold = ({ tld, day }) => put("holds/REF", { date: day, tld });
export const lift = ({ reference }) => curl(`lifts/${reference}`, "-d", "");
export const release = ({ tld, ground }) => put("releases/REF", { ground, tld });
export const fetchPart = ({ reference, name }) => curl(`releases/${reference}/${name}`, "-o", name);
