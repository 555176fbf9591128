// What a parser did, where the page has results: the states of goals, pairs and negatives, and the causes of what failed.
const results = data.results;
const worst = ["failed", "other", "known", "skipped", "untried", "passed"];
const toldStates = {
  failed: "wrongly taken or refused", other: "neither taken nor refused", known: "a known departure", skipped: "skipped by the parser",
  untried: "not run", passed: "as it has to be", infeasible: "in no sentence, and none of its negatives failed",
};

function stateOfCase(row, wanted) {
  if (!row || row.outcome === null) return "untried";
  if (row.known !== null) return "known";
  if (row.outcome === "other" || row.outcome === "skipped") return row.outcome;
  return row.outcome === wanted ? "passed" : "failed";
}

const stateOf = (goal) => results && goal.verdict === "feasible" ? stateOfCase(results.goals[goal.number], "taken") : goal.verdict;
const stateOfNegative = (negative) => results ? stateOfCase(results.negatives[negative.number], "refused") : "";
const hasFailed = (state) => state === "failed" || state === "other";
const worstOf = (states) => worst.find((state) => states.includes(state));

// What the parser did with a case, in words.
function toldOf(row) {
  if (!row || row.outcome === null) return "not run";
  return row.told + (row.known !== null ? `, known: ${row.known}` : "") + (row.cause !== null ? `, cause ${row.cause}` : "");
}

// Of each pair that no sentence has the states of its negatives.
function statesOfPairs() {
  const found = new Map();
  for (const negative of results ? data.negatives : []) {
    const key = negative.pair.join(" ");
    if (!found.has(key)) found.set(key, []);
    found.get(key).push(stateOfNegative(negative));
  }
  return found;
}

// The class of a cell of the matrix, and what its title adds. A pair that no sentence has is as bad as its worst negative.
function cellOf(goal, states) {
  if (!goal) return ["", ""];
  if (!results || goal.verdict === "large") return [goal.verdict, goal.verdict];
  if (goal.verdict === "feasible") return [stateOf(goal), toldOf(results.goals[goal.number])];
  const tried = states.filter((state) => state !== "untried"), found = worstOf(tried);
  const failed = tried.filter(hasFailed).length;
  return [found && found !== "passed" ? found : "infeasible", `infeasible, ${failed} of ${tried.length} negatives failed`];
}

// The key has the states that the matrix shows.
function showKey() {
  if (!results) return;
  const key = find("key");
  key.replaceChildren("A row is the first of two neighbours, a column the second. ");
  for (const state of [...worst, "infeasible"].filter((name) => find("matrix").querySelector(`td.${name}`))) {
    const part = make("span", undefined, "part");
    part.append(make("span", undefined, `swatch ${state}`), toldStates[state]);
    key.append(part, " ");
  }
}

// The negatives of a pair that no sentence has, those first that failed.
function negativesOfPair(words) {
  const found = data.negatives.filter((negative) => negative.pair.join(" ") === words.join(" "));
  const failed = found.filter((negative) => hasFailed(stateOfNegative(negative)));
  const lines = make("p", `${failed.length} of ${found.length} negatives failed`);
  for (const negative of failed.slice(0, 40)) {
    lines.append(make("div", `${negative.number}: ${textOf(negative)}: ${toldOf(results.negatives[negative.number])}`, "mono"));
  }
  return lines;
}

// The cases of a cause, with what shows each of them.
function showCause(cause, number) {
  const box = find("shown"), lines = make("p");
  box.replaceChildren(closeButton(), make("h2", `cause ${number}: ${cause.told}`), make("p", `text "${printed(cause.text)}"`, "mono"), make("p", `tokens: ${cause.tokens.join(" ")}`, "mono"));
  if (cause.wrote) box.append(make("p", `the parser: ${cause.wrote}`, "mono"));
  box.append(make("p", `${cause.cases} cases, the shortest is ${cause.name}. Those of this suite:`), lines);
  for (const goal of data.goals) if ((results.goals[goal.number] || {}).cause === number) lines.append(goalButton(goal, `goal ${goal.words.join(" ")}`));
  for (const negative of data.negatives) {
    if ((results.negatives[negative.number] || {}).cause === number) lines.append(make("div", `${negative.number}: ${negative.tokens.join(" ") || "(no tokens)"}`, "mono"));
  }
  box.hidden = false;
}

function showCauses() {
  find("causes").hidden = !results;
  if (!results) return;
  const rows = [...Object.values(results.goals), ...Object.values(results.negatives)].filter((row) => row.outcome !== null);
  const failed = data.goals.map(stateOf).concat(data.negatives.map(stateOfNegative)).filter(hasFailed).length;
  find("run").textContent = `${results.command.join(" ")}: ${failed} of ${rows.length} goals and negatives failed; ${results.causes.length} causes. `;
  results.causes.forEach((cause, place) => {
    const row = make("tr"), name = make("td"), button = make("button", cause.told, "told");
    button.onclick = () => showCause(cause, place + 1);
    name.append(button);
    row.append(make("td", `${place + 1}`), name, make("td", `${cause.cases}`, "number"), make("td", printed(cause.text).replaceAll('\\"', '"') || "(empty)", "mono text"));
    find("found").append(row);
  });
  find("found").hidden = results.causes.length === 0;
  find("filter").onchange = (event) => document.body.classList.toggle("failures", event.target.checked);
}
