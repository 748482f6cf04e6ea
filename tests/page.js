// Uses a page of `report` as a reader does, and writes what came of it into the page. tests/page puts it at the end of a page.
(() => {
  const tried = [];
  const expect = (what, so) => tried.push(`${so ? "ok" : "FAILED"}: ${what}`);
  const all = (selector) => [...document.querySelectorAll(selector)];
  const one = (selector) => document.querySelector(selector);
  const send = (element, kind, more = {}) => element.dispatchEvent(new MouseEvent(kind, { bubbles: kind === "click", ...more }));
  const press = (key) => document.dispatchEvent(new KeyboardEvent("keydown", { key, bubbles: true }));
  const card = () => one(".card");
  const hot = (selector) => all(selector).filter((element) => element.classList.contains("hot")).length;

  const layout = () => {
    expect("nothing is wider than the page", document.documentElement.scrollWidth <= innerWidth);
    all(".picture").forEach((frame) => {
      const [outer, inner] = [frame, frame.querySelector("svg")].map((element) => element.getBoundingClientRect());
      expect(`picture ${frame.id} is fitted to its frame`, inner.width > 50 && inner.right <= outer.right + 1 && inner.bottom <= outer.bottom + 1);
      expect(`picture ${frame.id} is no higher than the window`, outer.height <= innerHeight);
    });
    const paper = getComputedStyle(document.body).backgroundColor;
    expect("dark where the reader's system is dark", (paper !== "rgb(255, 255, 255)") === matchMedia("(prefers-color-scheme: dark)").matches);
  };

  const zooming = (frame) => {
    const svg = frame.querySelector("svg");
    const box = () => svg.getBoundingClientRect();
    const [larger, , whole] = frame.previousElementSibling.querySelectorAll("button");
    const before = box();
    larger.click();
    larger.click();
    expect("a button makes the picture larger", Math.abs(box().width / before.width - 2.25) < 0.01);
    larger.click();
    larger.click();
    const start = box();
    const at = frame.getBoundingClientRect();
    const pointer = (kind, x, more) => frame.dispatchEvent(new PointerEvent(kind, { pointerId: 1, clientX: at.left + x, clientY: at.top + x, ...more }));
    pointer("pointerdown", 70, { button: 0, buttons: 1 });
    pointer("pointermove", 100, { buttons: 1 });
    pointer("pointerup", 100, {});
    const followed = (side, length, room) => start[length] <= frame[room] || Math.abs(box()[side] - start[side] - 30) < 1;
    expect("it follows the mouse", followed("left", "width", "clientWidth") && followed("top", "height", "clientHeight"));
    whole.click();
    expect("and is whole again", Math.abs(box().width - before.width) < 1 && Math.abs(box().left - before.left) < 1);
    frame.dispatchEvent(new WheelEvent("wheel", { deltaY: -100, ctrlKey: true, cancelable: true }));
    expect("the wheel zooms with the control key", box().width > before.width);
    frame.dispatchEvent(new KeyboardEvent("keydown", { key: "0" }));
    const left = new WheelEvent("wheel", { deltaY: -100, cancelable: true });
    frame.dispatchEvent(left);
    expect("and scrolls the page without it", box().width === before.width && !left.defaultPrevented);
  };

  const pointing = () => {
    const node = one("#in-q1, #first-q1");
    const row = document.getElementById(node.id.replace("-q", "-row"));
    send(node, "mouseenter");
    const heads = [...card().querySelectorAll("dt")].map((head) => head.textContent);
    const moves = row.lastElementChild.textContent;
    expect("a state that is pointed at is shown", !card().hidden && row.textContent.includes(card().querySelector("h4").textContent));
    expect("with its moves, where it has some", heads.includes("moves") === (moves !== "") && card().textContent.includes(moves));
    expect("its arrows are shown", hot(".edge") === all(`#${node.id.split("-")[0]} .edge`).filter((e) => /\b(from|to)1\b/.test(e.getAttribute("class"))).length);
    send(node, "mouseleave");
    expect("and left again", card().hidden && hot("*") === 0);
    send(node, "click");
    send(node, "mouseleave");
    expect("a click keeps it", !card().hidden && hot(`#${node.id}`) === 1);
    press("Escape");
    expect("Escape leaves it", card().hidden && hot("*") === 0);
  };

  const classes = () => {
    const joined = one(".one");
    if (!joined) return;
    const number = joined.dataset.class;
    const members = all(`tr[id^="in-row"][data-class="${number}"]`).map((row) => row.id.replace("-row", "-q"));
    send(joined, "mouseenter");
    const shown = all("#in .node.hot").map((node) => node.id);
    expect("a class is shown in the picture of what came in", members.length > 1 && members.sort().join() === shown.sort().join() && hot(`#in-class${number}`) === 1);
    expect("and in that of what goes out", all("#out .node.hot").map((node) => node.id).join() === `out-q${number}`);
    expect("with its states by name", card().textContent.includes("class"));
    send(joined, "mouseleave");
    send(document.getElementById(`in-class${number}`), "mouseenter");
    expect("its box shows it too", all("#out .node.hot").length === 1);
    send(document.getElementById(`in-class${number}`), "mouseleave");
  };

  const filters = () => {
    const form = one("#filter");
    if (!form) return;
    const lines = all("tr[data-fate]");
    const shown = () => lines.filter((line) => !line.hidden);
    const change = () => form.dispatchEvent(new Event("change"));
    const [state, symbol] = form.querySelectorAll("select");
    for (const box of form.querySelectorAll("input")) {
      box.checked = false;
      change();
      expect(`records without those that are ${box.value}`, shown().length === lines.filter((line) => line.dataset.fate !== box.value).length);
      box.checked = true;
    }
    state.value = "0";
    change();
    const own = lines.filter((line) => line.dataset.states.split(" ").includes("0"));
    expect("records of a state", own.length === shown().length && own.every((line) => !line.hidden && line.closest("details").open));
    expect("how many are told", form.querySelector("output").textContent === `${own.length} of ${lines.length} records`);
    symbol.value = lines[lines.length - 1].dataset.by;
    change();
    expect("records of a state and a symbol", shown().every((line) => own.includes(line) && line.dataset.by === symbol.value));
    form.querySelector("button").click();
    expect("and all again", shown().length === lines.length && state.value === "");
  };

  const search = () => {
    const field = one("#find");
    const name = one("tr[id$='-row1']").querySelector("td:nth-last-child(3)").textContent;
    const type = (text) => {
      field.value = text;
      field.dispatchEvent(new Event("input"));
    };
    type(name.toUpperCase());
    expect("a name is found", all(".node.found").length > 0 && /^[1-9]\d* states?, /.test(one(".find output").textContent));
    field.form.requestSubmit();
    expect("and gone to", !card().hidden && card().querySelector("h4").textContent.toLowerCase().includes(name.toLowerCase()));
    press("Escape");
    type("no such name");
    expect("a name that is not there is told", all(".found").length === 0 && one(".find output").textContent === "0 states, 0 symbols");
    type("");
  };

  try {
    layout();
    if (one(".picture")) {
      zooming(one(".picture"));
      pointing();
      classes();
      search();
    }
    filters();
  } catch (error) {
    expect(`${error} ${error.stack}`, false);
  }
  const told = document.createElement("pre");
  told.id = "tried";
  told.textContent = `\n${tried.join("\n")}\n`;
  document.body.append(told);
})();
