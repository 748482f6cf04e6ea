"use strict";
// The page can be read without this. It adds: pictures that are fitted, zoomed and dragged; what is known of a state or class that is pointed at;
// records by what became of them, by state and by symbol; and a search for names.
(() => {
  const all = (selector, root = document) => [...root.querySelectorAll(selector)];
  const byId = (id) => document.getElementById(id);
  const make = (tag, properties, ...inner) => {
    const element = Object.assign(document.createElement(tag), properties);
    element.append(...inner);
    return element;
  };
  document.documentElement.classList.add("live");

  // ---- pictures
  const MOST = 12;

  // A picture in its frame: as large as it is, or as large as the page and the window are.
  const fitted = (frame) => {
    const svg = frame.querySelector("svg");
    const box = svg.viewBox.baseVal;
    const [wide, high] = [(box.width * 4) / 3, (box.height * 4) / 3];
    const at = { x: 0, y: 0, zoom: 1, fit: 1 };
    const within = (start, length, room) => (length <= room ? 0 : Math.min(0, Math.max(room - length, start)));
    const place = () => {
      at.x = within(at.x, wide * at.fit * at.zoom, frame.clientWidth);
      at.y = within(at.y, high * at.fit * at.zoom, frame.clientHeight);
      svg.style.transform = `translate(${at.x}px, ${at.y}px) scale(${at.zoom})`;
      frame.classList.toggle("zoomed", at.zoom > 1);
    };
    const fit = () => {
      at.fit = Math.min(1, frame.clientWidth / wide, (innerHeight * 0.8) / high);
      svg.style.width = `${wide * at.fit}px`;
      frame.style.height = `${high * at.fit + frame.offsetHeight - frame.clientHeight}px`;
      place();
    };
    const zoom = (factor, x = frame.clientWidth / 2, y = frame.clientHeight / 2) => {
      const before = at.zoom;
      at.zoom = Math.min(MOST, Math.max(1, before * factor));
      at.x = x - ((x - at.x) * at.zoom) / before;
      at.y = y - ((y - at.y) * at.zoom) / before;
      place();
    };
    const move = (x, y) => {
      at.x += x;
      at.y += y;
      place();
    };
    fit();
    addEventListener("resize", fit);
    return { frame, zoom, move, whole: () => zoom(0), zoomed: () => at.zoom > 1 };
  };

  // Buttons over a picture.
  const buttons = (picture) => {
    const button = (text, title, act) => {
      const made = make("button", { type: "button", title, onclick: act }, text);
      made.setAttribute("aria-label", title);
      return made;
    };
    const bar = make(
      "div",
      { className: "bar" },
      button("+", "Larger", () => picture.zoom(1.5)),
      button("−", "Smaller", () => picture.zoom(1 / 1.5)),
      button("Whole", "The whole picture", picture.whole),
      make("span", {}, "Drag to move, double-click or Ctrl and the wheel to zoom. Point at a state or class; click to keep it."),
    );
    picture.frame.before(bar);
  };

  // The mouse, a finger or the keys over a picture.
  const moved = (picture) => {
    const { frame } = picture;
    const place = (event) => [event.clientX - frame.getBoundingClientRect().left, event.clientY - frame.getBoundingClientRect().top];
    let last = null;
    frame.addEventListener("pointerdown", (event) => {
      last = picture.zoomed() && event.button === 0 ? [event.clientX, event.clientY] : null;
    });
    frame.addEventListener("pointermove", (event) => {
      if (!last || event.buttons === 0) return;
      frame.setPointerCapture(event.pointerId);
      picture.move(event.clientX - last[0], event.clientY - last[1]);
      last = [event.clientX, event.clientY];
    });
    frame.addEventListener("pointerup", () => (last = null));
    frame.addEventListener("dblclick", (event) => picture.zoom(2, ...place(event)));
    const wheel = (event) => {
      if (!event.ctrlKey) return;
      event.preventDefault();
      picture.zoom(event.deltaY < 0 ? 1.2 : 1 / 1.2, ...place(event));
    };
    frame.addEventListener("wheel", wheel, { passive: false });
    const keys = { "+": () => picture.zoom(1.5), "-": () => picture.zoom(1 / 1.5), 0: picture.whole };
    const arrows = { ArrowLeft: [60, 0], ArrowRight: [-60, 0], ArrowUp: [0, 60], ArrowDown: [0, -60] };
    frame.addEventListener("keydown", (event) => {
      const step = picture.zoomed() && arrows[event.key];
      if (step) picture.move(...step);
      else if (keys[event.key]) keys[event.key]();
      else return;
      event.preventDefault();
    });
  };

  // ---- states and classes
  const ROW = /^(\w+)-row(\d+)$/;
  const NODE = /^(\w+)-q(\d+)$/;
  const rows = all("tr[id]").filter((row) => ROW.test(row.id));
  const cell = (row, head) => {
    const place = all("th", row.closest("table")).findIndex((th) => th.textContent === head);
    return place < 0 ? null : row.cells[place];
  };
  const nameOf = (row) => cell(row, "state").textContent;
  const card = make("aside", { className: "card", hidden: true });
  card.setAttribute("aria-live", "polite");
  document.body.append(card);
  let kept = false;

  const clear = () => {
    all(".hot").forEach((element) => element.classList.remove("hot"));
    all(".pointing").forEach((element) => element.classList.remove("pointing"));
    card.hidden = true;
  };
  const heat = (elements) =>
    elements.filter(Boolean).forEach((element) => {
      element.classList.add("hot");
      element.closest(".picture")?.classList.add("pointing");
    });

  // What a class has in both pictures and in the lists.
  const ofClass = (number) => {
    const own = rows.filter((row) => row.dataset.class === number);
    const nodes = own.map((row) => byId(row.id.replace("-row", "-q")));
    return [...nodes, byId(`in-class${number}`), ...all(`[data-class="${number}"]`)];
  };

  // The card: what the list of moves says of a state, by its heads.
  const show = (row) => {
    const lines = all("th", row.closest("table")).flatMap((head, place) => {
      const said = row.cells[place];
      if (!said.textContent || head.textContent === "state") return [];
      return [make("dt", {}, head.textContent), make("dd", {}, ...said.cloneNode(true).childNodes)];
    });
    card.replaceChildren(make("h4", {}, nameOf(row)), make("dl", {}, ...lines));
    if (records && row.id.startsWith("in-")) {
      const list = () => records.only(row.id.match(ROW)[2]);
      card.append(make("button", { type: "button", onclick: list }, "Its records"));
    }
    card.hidden = false;
  };
  const pointState = (row) => {
    clear();
    const [, prefix, number] = row.id.match(ROW);
    const frame = byId(prefix);
    const node = byId(`${prefix}-q${number}`);
    if (row.dataset.class) heat(ofClass(row.dataset.class));
    heat([row, node]);
    if (frame) heat(all(`.edge.from${number}, .edge.to${number}`, frame));
    show(row);
  };
  const pointClass = (number) => {
    clear();
    heat(ofClass(number));
    const row = byId(`out-row${number}`) ?? rows.find((one) => one.dataset.class === number);
    if (row) show(row);
  };

  // Pointing shows, leaving hides, a click or the Enter key keeps.
  const pointed = (element, act) => {
    element.addEventListener("mouseenter", () => kept || act());
    element.addEventListener("mouseleave", () => kept || clear());
    const keep = (event) => {
      event.stopPropagation();
      act();
      kept = true;
      card.classList.add("kept");
    };
    element.addEventListener("click", keep);
    element.addEventListener("keydown", (event) => event.key === "Enter" && keep(event));
  };
  const release = () => {
    kept = false;
    card.classList.remove("kept");
    clear();
  };
  const watched = () => {
    all(".picture .node").forEach((node) => {
      const row = NODE.test(node.id) && byId(node.id.replace("-q", "-row"));
      if (!row) return;
      node.setAttribute("tabindex", "0");
      node.setAttribute("role", "button");
      node.setAttribute("aria-label", nameOf(row));
      all("title", node).forEach((title) => title.remove());
      pointed(node, () => pointState(row));
    });
    all(".picture .cluster").forEach((box) => pointed(box, () => pointClass(box.id.replace("in-class", ""))));
    all(".one").forEach((one) => pointed(one, () => pointClass(one.dataset.class)));
    all("#map tr[data-class]").forEach((row) => pointed(row, () => pointClass(row.dataset.class)));
    rows.forEach((row) => pointed(row, () => pointState(row)));
    card.addEventListener("click", (event) => event.stopPropagation());
    document.addEventListener("click", release);
    document.addEventListener("keydown", (event) => event.key === "Escape" && release());
    addEventListener("beforeprint", release);
  };

  // ---- records
  const options = (label, pairs) => {
    const select = make("select", {}, make("option", { value: "" }, `any ${label}`));
    select.setAttribute("aria-label", label);
    pairs.forEach(([value, text]) => select.append(make("option", { value }, text)));
    return select;
  };
  const filtered = (place) => {
    const lines = all("tr[data-fate]", place);
    const fates = ["kept", "folded", "dead"].map((fate) => make("input", { type: "checkbox", checked: true, value: fate }));
    const state = options("state", rows.filter((row) => row.id.startsWith("in-")).map((row) => [row.id.match(ROW)[2], nameOf(row)]));
    const symbol = options("symbol", [...new Map(lines.map((line) => [line.dataset.by, line.dataset.symbol]))]);
    const told = make("output", {});
    const wanted = (line) =>
      fates.some((fate) => fate.checked && fate.value === line.dataset.fate) &&
      (!state.value || line.dataset.states.split(" ").includes(state.value)) &&
      (!symbol.value || line.dataset.by === symbol.value);
    const apply = () => {
      lines.forEach((line) => (line.hidden = !wanted(line)));
      const shown = lines.filter((line) => !line.hidden).length;
      all("details", place).forEach((list) => {
        list.hidden = all("tr[data-fate]", list).every((line) => line.hidden);
        list.open ||= shown < lines.length;
      });
      told.textContent = `${shown} of ${lines.length} records`;
    };
    const reset = () => {
      fates.forEach((fate) => (fate.checked = true));
      [state.value, symbol.value] = ["", ""];
      apply();
    };
    const boxes = fates.map((fate) => make("label", {}, fate, ` ${fate.value}`));
    const bar = make("form", { className: "bar", id: "filter" }, ...boxes, state, symbol, make("button", { type: "button", onclick: reset }, "All"), told);
    bar.addEventListener("change", apply);
    place.prepend(bar);
    told.textContent = `${lines.length} of ${lines.length} records`;
    const only = (number) => {
      reset();
      state.value = number;
      apply();
      place.scrollIntoView();
    };
    return { only, symbols: [...symbol.options].slice(1).map((option) => [option.value, option.textContent]) };
  };

  // ---- names
  const searched = () => {
    const field = make("input", { type: "search", placeholder: "a state or a symbol", id: "find", autocomplete: "off" });
    const told = make("output", {});
    const form = make("form", { className: "bar find" }, make("label", { htmlFor: "find" }, "Find "), field, make("button", {}, "Next"), told);
    const symbols = records ? records.symbols : [];
    let [found, next] = [[], 0];
    const count = (number, noun) => `${number} ${noun}${number === 1 ? "" : "s"}`;
    const look = () => {
      all(".found").forEach((element) => element.classList.remove("found"));
      const text = field.value.trim().toLowerCase();
      const has = (name) => text !== "" && name.toLowerCase().includes(text);
      found = rows.filter((row) => has(nameOf(row)));
      const named = symbols.filter(([, name]) => has(name));
      const nodes = found.flatMap((row) => [row, byId(row.id.replace("-row", "-q"))]).filter(Boolean);
      const arrows = named.flatMap(([number]) => all(`.edge.by${number}`));
      [...nodes, ...arrows].forEach((element) => element.classList.add("found"));
      next = 0;
      told.textContent = text ? `${count(new Set(found.map(nameOf)).size, "state")}, ${count(named.length, "symbol")}` : "";
    };
    field.addEventListener("input", look);
    form.addEventListener("submit", (event) => {
      event.preventDefault();
      if (!found.length) return;
      const row = found[next++ % found.length];
      pointState(row);
      kept = true;
      card.classList.add("kept");
      const place = byId(row.id.replace("-row", "-q")) ?? row;
      if (place === row) row.closest("details").open = true;
      place.scrollIntoView({ block: "center" });
    });
    form.addEventListener("click", (event) => event.stopPropagation());
    document.querySelector("main").prepend(form);
  };

  const records = byId("records") && filtered(byId("records"));
  const pictures = all(".picture").map(fitted);
  pictures.forEach((picture) => {
    buttons(picture);
    moved(picture);
    picture.frame.tabIndex = 0;
    picture.frame.querySelector("svg").setAttribute("role", "group");
  });
  if (rows.length) searched();
  watched();
})();
