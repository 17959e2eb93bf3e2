// Requests to the agent, through the gateway that served this page. Each is a GET.
import { readListing } from "./answers.js";

/** Where the agent answers: the page is in the folder `desk/` of it, or of one of its vaults. */
export const AGENT = new URL("..", location.href).href;
const LIMIT = 300_000;

/** Why a request has no answer, in words for the desk. */
export class AskError extends Error {}

/** A response to GET, whatever its status, and the moment that the gateway gave it. */
async function get(path) {
  const response = await fetch(AGENT + path, { cache: "no-store", redirect: "error", signal: AbortSignal.timeout(LIMIT) })
    .catch(() => { throw new AskError(`GET /${path}: no answer`); });
  const moment = new Date(response.headers.get("Date") ?? Date.now());
  return { response, moment: moment.toISOString().replace(/\.\d+/, "") };
}

/** Asks by GET, and hands over the pieces of the agent's answer as they come. Gives the moment of the answer. */
export async function askInPieces(path, take) {
  const { response, moment } = await get(path);
  const cut = () => { throw new AskError(`GET /${path}: the answer did not come whole`); };
  const isAgent = response.headers.get("Content-Type") === "text/plain";
  if (!response.ok) {
    const text = isAgent ? (await response.text().catch(cut)).trim() : "of the gateway";
    throw new AskError(`GET /${path}: ${response.status} ${text}`);
  }
  if (!isAgent) throw new AskError(`GET /${path}: this is no answer of the agent`);
  const reader = response.body.pipeThrough(new TextDecoderStream()).getReader();
  for (let it = await reader.read().catch(cut); !it.done; it = await reader.read().catch(cut)) take(it.value);
  return moment;
}

/** The agent's answer to GET, and its moment. */
export async function ask(path) {
  const pieces = [], moment = await askInPieces(path, (piece) => pieces.push(piece));
  return { text: pieces.join(""), moment };
}

/** Whether a release lists a part: yes, no or unknown. Of the part's bytes nothing is read. */
export async function lists(reference, name) {
  try {
    const { response } = await get(`releases/${reference}/${name}`);
    if (response.ok) {
      await response.body.cancel();
      return "yes";
    }
    return readListing(await response.text());
  } catch {
    return "unknown";
  }
}
