// Asks the server. The secret comes behind `#` from the start file; it is wiped from the address, kept for this tab alone, and sent as a header.

const KEPT = "gract-secret";

// What is told of the server besides answers: set by main.js.
export const heard = {version: () => {}, replaced: () => {}};

export class Refusal extends Error {
  constructor(kind, sentence) {
    super(sentence);
    this.kind = kind;
  }
}

// Takes the secret out of the address; the rest of the address is what is to be shown.
export const takeSecret = () => {
  const pairs = location.hash.slice(1).split("&").filter(Boolean);
  const given = pairs.find(pair => pair.startsWith("secret="));
  if (given) {
    sessionStorage.setItem(KEPT, given.slice("secret=".length));
    const rest = pairs.filter(pair => pair !== given).join("&");
    history.replaceState(null, "", rest ? `#${rest}` : location.pathname);
  }
  return sessionStorage.getItem(KEPT);
};

const refusalOf = async response => {
  if (response.status === 403) return new Refusal("Secret", "This page is not let in: it was opened without the start file, or gract was started anew.");
  try {
    const said = await response.json();
    return new Refusal(said.kind, said.refused);
  } catch {
    return new Refusal("Reply", `The server answers ${response.status}.`);
  }
};

// The response to a question, or a Refusal. An abort stays an AbortError.
const post = async (path, asked, signal) => {
  let response;
  try {
    response = await fetch(path, {
      method: "POST", body: JSON.stringify(asked), signal, cache: "no-store", credentials: "omit", referrerPolicy: "no-referrer",
      headers: {"Content-Type": "application/json", "X-Gract-Secret": sessionStorage.getItem(KEPT) || ""},
    });
  } catch (fault) {
    if (fault.name === "AbortError") throw fault;
    throw new Refusal("Ended", "gract does not answer: it has ended.");
  }
  if (!response.ok) throw await refusalOf(response);
  heard.version(+response.headers.get("X-Gract-Version"));
  heard.replaced(response.headers.get("X-Gract-Replaced") === "1");
  return response;
};

export const askJson = async (path, asked = {}, signal = undefined) => (await post(path, asked, signal)).json();
export const askBytes = async (path, asked = {}, signal = undefined) => (await post(path, asked, signal)).arrayBuffer();
