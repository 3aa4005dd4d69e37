// Server-sent events read with the token, which the browser's own EventSource can't send.

const SILENT_AFTER = 15000;

// Follows the stream of events until it ends, and then throws an error. `take` is told each event's kind and value.
export async function follow(token, take, stopped) {
  const headers = token ? { authorization: "Bearer " + token } : {};
  const response = await fetch("events", { headers, cache: "no-store", signal: stopped });
  if (!response.ok) throw Object.assign(new Error("refused"), { status: response.status });
  const reader = response.body.pipeThrough(new TextDecoderStream()).getReader();
  let rest = "";
  for (;;) {
    const timer = setTimeout(() => reader.cancel(), SILENT_AFTER);
    const { value, done } = await reader.read();
    clearTimeout(timer);
    if (done) throw new Error("ended");
    const parts = (rest + value).split("\n\n");
    rest = parts.pop();
    for (const part of parts) {
      const [, kind, text] = /^event: (\w+)\ndata: (.*)$/s.exec(part) || [];
      if (kind) take(kind, JSON.parse(text));
    }
  }
}
