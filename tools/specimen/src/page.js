"use strict";
(() => {
  const body = document.body;
  const numbers = document.getElementById("numbers");
  // the axis and the way of each arrow key
  const ARROWS = {ArrowRight: ["x", 1], ArrowLeft: ["x", -1], ArrowUp: ["y", 1], ArrowDown: ["y", -1]};
  let pointed = null;
  let rested = [];
  let dragged = null;
  let held = null;
  const sections = [...document.querySelectorAll(".glyph")];
  const names = sections.map(section => section.firstChild.textContent);
  const named = document.querySelector("[name=named]");
  const text = document.querySelector("[name=text]");
  // how many times their size the pixels of the line of text are drawn
  const TIMES = [() => 1 / devicePixelRatio, () => 4];

  // Makes a drawing of the text that stands for it.
  const make = figure => {
    const later = figure.querySelector(".later");
    if (later) later.outerHTML = later.firstChild.textContent.replace(/~(.)/g, (_, letter) => PHRASES[letter]);
  };

  // Shows the outlines before or after.
  const show = view => {
    putBack();
    body.classList.toggle("before", view === "before");
    body.classList.toggle("after", view === "after");
    for (const input of document.getElementsByName("view")) input.checked = input.value === view;
    clear();
  };

  const clear = () => {
    if (pointed) pointed.classList.remove("pointed");
    pointed = null;
    numbers.hidden = true;
  };

  // Shows the numbers of an edge or a point at a place of the page.
  const tell = (mark, x, y) => {
    clear();
    pointed = mark;
    mark.classList.add("pointed");
    numbers.textContent = mark.dataset.n;
    numbers.hidden = false;
    const {clientWidth, clientHeight} = document.documentElement;
    const right = window.scrollX + clientWidth - numbers.offsetWidth - 8;
    const below = y + 14 + numbers.offsetHeight < window.scrollY + clientHeight;
    numbers.style.left = Math.max(window.scrollX, Math.min(x + 14, right)) + "px";
    numbers.style.top = (below ? y + 14 : y - 14 - numbers.offsetHeight) + "px";
  };

  // Shows the numbers of an edge or a point at itself.
  const tellThere = mark => {
    const place = mark.getBoundingClientRect();
    tell(mark, window.scrollX + place.left + place.width / 2, window.scrollY + place.top + place.height / 2);
  };

  // Goes on to the next edge or point of a glyph, or back.
  const step = (figure, by) => {
    make(figure);
    const marks = [...figure.querySelectorAll("[data-n]")].filter(mark => mark.getBoundingClientRect().width + mark.getBoundingClientRect().height > 0);
    if (marks.length === 0) return;
    const at = marks.indexOf(pointed);
    tellThere(marks[at < 0 ? (by > 0 ? 0 : marks.length - 1) : (at + by + marks.length) % marks.length]);
  };

  // Whether this is a point that can be dragged: a touched one of a fitted drawing.
  const canDrag = mark => mark !== null && body.classList.contains("after") && (mark.dataset.x ?? mark.dataset.y) !== undefined;

  // A line below a drawing, to tell of a drag and to put the point back.
  const lineBelow = figure => {
    const line = document.createElement("p");
    line.className = "drag";
    const back = document.createElement("button");
    back.type = "button";
    back.textContent = "put back";
    back.addEventListener("click", putBack);
    line.append(document.createElement("span"), back);
    figure.querySelector("figcaption").append(line);
    return line;
  };

  // Takes up a point. What moves with it on an axis: points, places of the path, and how far at each position, in 128ths of a pixel; the point itself is first.
  const take = mark => {
    if (dragged?.mark === mark) return;
    putBack();
    const figure = mark.closest("figure");
    const outline = figure.querySelector(".oa");
    const marks = [...figure.querySelectorAll(".p")];
    const points = marks.map(one => one.querySelector(".a use"));
    const axes = {};
    for (const axis of ["x", "y"]) {
      if (!mark.dataset[axis]) continue;
      const moving = JSON.parse(mark.dataset[axis]);
      axes[axis] = {moving, stops: moving[0][2], at: moving[0][2].indexOf(0)};
    }
    const pixel = outline.parentNode.transform.baseVal.getItem(1).matrix.a;
    const fitted = points.map(one => ({x: +one.getAttribute("x"), y: +one.getAttribute("y")}));
    dragged = {mark, figure, outline, marks, points, axes, pixel, fitted, path: outline.getAttribute("d"), told: lineBelow(figure)};
    figure.classList.add("dragged");
    mark.classList.add("leads");
  };

  // Draws the library's answer for where the dragged point is: what is fitted, and how far each has moved from there.
  const draw = () => {
    const {marks, points, axes, pixel, path, fitted} = dragged;
    const places = path.match(/-?[\d.]+/g).map(Number);
    const followers = new Set();
    points.forEach((one, point) => { for (const axis of ["x", "y"]) one.setAttribute(axis, fitted[point][axis]); });
    for (const [axis, {moving, at}] of Object.entries(axes)) {
      const up = axis === "y";
      for (const [those, ends, by] of moving) {
        const far = by[at] / 128;
        for (const point of those) {
          points[point].setAttribute(axis, fitted[point][axis] + far * pixel * (up ? -1 : 1));
          if (far !== 0 && marks[point] !== dragged.mark) followers.add(point);
        }
        for (const place of ends) places[2 * place + up] += far;
      }
    }
    marks.forEach((one, point) => one.classList.toggle("follows", followers.has(point)));
    let place = 0;
    dragged.outline.setAttribute("d", path.replace(/-?[\d.]+/g, () => places[place++]));
    const far = Object.entries(axes).map(([axis, {stops, at}]) => `${axis} by ${stops[at] / 128}`).join(", ");
    dragged.told.firstChild.textContent = `point ${marks.indexOf(dragged.mark)} dragged, ${far} pixels; points that follow: ${followers.size} `;
  };

  // Draws the fitted drawing again.
  const putBack = () => {
    if (!dragged) return;
    for (const axis of Object.values(dragged.axes)) axis.at = axis.stops.indexOf(0);
    draw();
    dragged.outline.setAttribute("d", dragged.path);
    dragged.told.remove();
    dragged.figure.classList.remove("dragged");
    dragged.mark.classList.remove("leads");
    dragged = null;
  };

  // Drags the held point to the position nearest to the pointer. A pointer that hardly moves drags nothing.
  const dragTo = event => {
    const [right, up] = [event.clientX - held.x, held.y - event.clientY];
    if (!canDrag(held.mark) || (dragged?.mark !== held.mark && Math.hypot(right, up) < 3)) return;
    take(held.mark);
    held.from ??= Object.fromEntries(Object.entries(dragged.axes).map(([name, {stops, at}]) => [name, stops[at]]));
    const pixel = dragged.outline.getScreenCTM().a;
    const far = {x: right / pixel, y: up / pixel};
    for (const [name, axis] of Object.entries(dragged.axes)) {
      const want = held.from[name] + 128 * far[name];
      axis.at = axis.stops.reduce((best, stop, at) => Math.abs(stop - want) < Math.abs(axis.stops[best] - want) ? at : best, 0);
    }
    draw();
    clear();
  };

  // Drags the point that is pointed at to the next position, by a key.
  const nudge = (name, by) => {
    const mark = pointed;
    if (!canDrag(mark) || !mark.dataset[name]) return;
    take(mark);
    const axis = dragged.axes[name];
    axis.at = Math.max(0, Math.min(axis.stops.length - 1, axis.at + by));
    draw();
    tellThere(mark);
  };

  // Whether a glyph is meant: by its character, or by a part of its name.
  const isNamed = (row, wanted) => [...wanted].length === 1 ? sections[row].dataset.c === wanted : names[row].toLowerCase().includes(wanted.toLowerCase());

  // What is shown of glyphs beside their drawings: the rows of the lists and the pixels of the overview, each with the number of its glyph.
  const parts = [...document.querySelectorAll("tbody td.size a:first-child, .overview a")].map(link => [link.closest("tr") ?? link, +link.getAttribute("href").match(/\d+/)[0]]);

  // Shows the glyphs that are asked for alone, here, in the lists and in the overview.
  const choose = () => {
    const only = [...document.querySelectorAll("[name=only]:checked")].map(input => input.value);
    const wanted = named.value.trim();
    sections.forEach((section, row) => {
      section.hidden = !only.every(value => section.classList.contains(value)) || (wanted !== "" && !isNamed(row, wanted));
    });
    for (const [part, row] of parts) {
      if (part.hidden !== sections[row].hidden) part.hidden = sections[row].hidden;
    }
    const shown = sections.filter(section => !section.hidden).length;
    document.querySelector("[name=count]").textContent = `${shown} of ${sections.length}`;
  };

  // The glyphs by what stands for them in a text: their characters, and their names in braces.
  const rows = new Map();
  sections.forEach((section, row) => {
    for (const key of [section.dataset.c, `{${names[row]}}`]) if (key !== undefined && !rows.has(key)) rows.set(key, row);
  });

  // The line of text at a size in a view, so many times as large: its pixels side by side, each glyph an advance width behind the one before. Tells what it has no pixels for.
  const setLine = (wanted, size, view, times, missing) => {
    let [x, uses, widths] = [0, "", "M0"];
    const [up, down] = [size, Math.floor((size + 2) / 4)];
    for (const one of wanted) {
      const pixels = document.getElementById(`x${rows.get(one)}-${size}${view}`);
      if (!pixels && one !== " ") missing.add(one);
      const [shift, advance] = pixels ? pixels.dataset.s.split(" ").map(Number) : [0, Math.round(size / 4)];
      if (pixels) uses += `<use href="#${pixels.id}" x="${x + shift}"/>`;
      x += advance;
      widths += ` ${-down}v${down + up}M${x}`;
    }
    const marks = times > 1 ? `<path class="grid" d="${widths} ${-down}v${down + up}"/>` : "";
    return `<svg class="${view}" width="${x * times}" height="${(up + down) * times}" viewBox="0 ${-up} ${x} ${up + down}" aria-hidden="true"><g transform="scale(1 -1)">${marks}${uses}</g></svg>`;
  };

  // Sets the text that was typed, at every size.
  const setText = () => {
    const wanted = text.value.match(/\{[^}]*\}|./gu) ?? [];
    const missing = new Set();
    for (const line of document.querySelectorAll(".text .line")) {
      const sets = TIMES.flatMap(times => ["b", "a"].map(view => setLine(wanted, +line.dataset.size, view, times(), missing)));
      line.lastChild.innerHTML = sets.join("");
    }
    document.querySelector("[name=missing]").textContent = missing.size > 0 ? `not there: ${[...missing].join(" ")}` : "";
  };

  document.addEventListener("change", event => {
    if (event.target.name === "view") show(event.target.value);
    if (event.target.name === "layer") body.classList.toggle("no-" + event.target.value, !event.target.checked);
    if (event.target.name === "only") choose();
  });
  document.addEventListener("input", event => {
    if (event.target === named) choose();
    if (event.target === text) setText();
  });
  document.addEventListener("submit", event => event.preventDefault());
  const point = event => {
    const mark = event.target.closest("[data-n]");
    if (mark) tell(mark, event.pageX, event.pageY);
    else clear();
  };
  document.addEventListener("pointermove", event => {
    // what scrolls below a pointer that rests is not pointed at
    if (event.screenX === rested[0] && event.screenY === rested[1]) return;
    rested = [event.screenX, event.screenY];
    if (held) dragTo(event);
    else point(event);
  });
  document.addEventListener("pointerdown", event => {
    point(event);
    if (event.button !== 0 || !canDrag(pointed)) return;
    held = {mark: pointed, x: event.clientX, y: event.clientY};
    pointed.setPointerCapture(event.pointerId);
  });
  for (const end of ["pointerup", "pointercancel"]) document.addEventListener(end, () => { held = null; });
  document.addEventListener("focusout", clear);
  document.addEventListener("keydown", event => {
    if (event.ctrlKey || event.altKey || event.metaKey) return;
    if ([named, text].includes(event.target) && event.key !== "Escape") return;
    const figure = document.activeElement?.closest("figure");
    if (event.key === "b") show("before");
    else if (event.key === "a") show("after");
    else if (event.key === "f") document.querySelector("[value=listed]").click();
    else if (event.key === "/") named.focus();
    else if (event.key === "Escape") {
      held = null;
      putBack();
      clear();
    }
    else if (figure && event.shiftKey && event.key in ARROWS) nudge(...ARROWS[event.key]);
    else if (figure && event.key === "ArrowRight") step(figure, 1);
    else if (figure && event.key === "ArrowLeft") step(figure, -1);
    else return;
    event.preventDefault();
  });
  // Drawings are made when they come near the view, and all of them to be printed.
  const near = new IntersectionObserver(entries => {
    for (const {target} of entries.filter(entry => entry.isIntersecting)) {
      make(target);
      near.unobserve(target);
    }
  }, {rootMargin: "50%"});
  const figures = document.querySelectorAll("figure");
  figures.forEach(figure => near.observe(figure));
  addEventListener("beforeprint", () => figures.forEach(make));
  // A page that is shown again may keep what was ticked.
  for (const input of document.querySelectorAll("input:checked[name=view]")) show(input.value);
  for (const input of document.getElementsByName("layer")) body.classList.toggle("no-" + input.value, !input.checked);
  choose();
  setText();
})();
