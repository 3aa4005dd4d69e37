// Lists the desk's calls from its OpenAPI description.

const page = document.getElementById("calls");

function make(tag, text, ...children) {
  const element = document.createElement(tag);
  if (text) element.textContent = text;
  element.append(...children);
  return element;
}

// The words for a value's kind, such as `integer 1 to 6`.
function kindOf(given) {
  const schema = given.anyOf ? given.anyOf.filter(it => it.type !== "null").pop() : given;
  const low = schema.minimum, high = schema.maximum;
  return (schema.type || "any") + (low === undefined || high === undefined || high > 1000 ? "" : ` ${low} to ${high}`);
}

function fieldsOf(call, schemas) {
  const rows = (call.parameters || []).map(it => [it.name, it.in, it.schema, it.required]);
  const body = call.requestBody && call.requestBody.content["application/json"].schema.$ref;
  if (!body) return rows;
  const { properties, required = [] } = schemas[body.split("/").pop()];
  return [...rows, ...Object.entries(properties).map(([name, it]) => [name, "body", it, required.includes(name)])];
}

// What a field means, whether it is needed, and what it is without being given.
function meaningOf(schema, required) {
  if (schema.description) return schema.description;
  return required ? "needed" : schema.default === undefined ? "" : `${schema.default} without it`;
}

// Examples of a call's body and of its answer, each with its name.
function examplesOf(call, schemas) {
  const body = call.requestBody && call.requestBody.content["application/json"].schema.$ref;
  const answer = Object.values(call.responses).map(it => it.content && it.content["application/json"].example).find(Boolean);
  return [["Body", body && schemas[body.split("/").pop()].example], ["Answer", answer]].filter(([, it]) => it);
}

function show(description) {
  const schemas = description.components.schemas;
  for (const [path, calls] of Object.entries(description.paths)) {
    for (const [method, call] of Object.entries(calls)) {
      const part = make("section", "", make("h2", "", make("code", `${method.toUpperCase()} ${path}`)), make("p", call.description));
      const rows = fieldsOf(call, schemas).map(([name, place, schema, required]) =>
        make("tr", "", make("td", "", make("code", name)), make("td", place), make("td", kindOf(schema)), make("td", meaningOf(schema, required))));
      if (rows.length) part.append(make("table", "", make("tbody", "", ...rows)));
      for (const [name, example] of examplesOf(call, schemas)) part.append(make("pre", `${name}: ${JSON.stringify(example, null, 1).replace(/\n */g, " ")}`));
      page.append(part);
    }
  }
  page.append(make("p", "What the book refuses is answered 409 with its word, a bad value 422, an unknown ride or vehicle 404, a missing token 401. While the dispatcher can't take commands: 503."));
}

fetch("openapi.json").then(it => it.json()).then(show, () => page.append(make("p", "The description could not be read.")));
