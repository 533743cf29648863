// The page's requests to its server. Addresses are relative, so each contains the random word of the page's address.

/** Why the server refused a request, in its own words. */
export class Refusal extends Error {}

/** An address with parameters after the `?`. Undefined ones are left out. */
export function address(name, words = {}) {
  const given = Object.entries(words).filter(([, word]) => word !== undefined);
  return given.length ? `${name}?${new URLSearchParams(given)}` : name;
}

async function answered(target, options) {
  let response;
  try {
    response = await fetch(target, options);
  } catch (fault) {
    if (fault.name === "AbortError") throw fault;
    throw new Refusal("the server doesn't answer: see whether it was ended where it was started");
  }
  if (!response.ok) {
    const text = await response.text();
    let reason = text;
    try {
      reason = JSON.parse(text).error;
    } catch {
      // A text that isn't JSON is shown as it is.
    }
    throw new Refusal(reason || response.statusText);
  }
  return response;
}

/** The JSON at an address. */
export async function getJson(name, words) {
  return (await answered(address(name, words))).json();
}

/** The text at an address. An AbortSignal may end the wait. */
export async function getText(name, words, signal) {
  return (await answered(address(name, words), { signal })).text();
}

/** The JSON answer to a request with a body: a text, or a file. */
export async function postJson(name, words, body) {
  return (await answered(address(name, words), { method: "POST", body })).json();
}

/** Saves the content of an address as a file, under the name that the server gives it. */
export async function save(name, words) {
  const response = await answered(address(name, words));
  const named = /filename="([^"]*)"/.exec(response.headers.get("Content-Disposition") ?? "");
  const link = document.createElement("a");
  link.href = URL.createObjectURL(await response.blob());
  link.download = named ? named[1] : name;
  link.click();
  // The browser reads the file at a later time.
  setTimeout(() => URL.revokeObjectURL(link.href), 60_000);
}
