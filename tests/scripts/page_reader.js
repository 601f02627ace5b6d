// Steps through all moments of a page, forward and back, and leaves what it says at each as JSON in an element `said`. It is put
// behind the page's own scripts by page_shown.
(() => {
  const all = (selector) => [...document.querySelectorAll(selector)];
  const place = (element) => element.closest("[data-place]").dataset.place;
  const registers = () => all(".stay[data-key] > .frame [data-register]").map((row) => {
    const name = [place(row), row.closest("[data-key]").dataset.key, row.dataset.register].join(" ");
    return [name, row.querySelector(".value").textContent];
  });
  const says = () => ({
    position: byId("position").textContent,
    event: byId("event").textContent,
    notes: all("#notes li").map((it) => it.textContent),
    registers: Object.fromEntries(registers()),
    lines: all('[data-part="lines"] .list > li').map((it) => [place(it), it.textContent]),
    frames: all("#flights [data-frame]").map((it) => it.dataset.frame),
  });
  const walk = (button) => {
    const said = [says()];
    while (!byId(button).disabled) {
      byId(button).click();
      said.push(says());
    }
    return said;
  };
  byId("first").click();
  const said = { forward: walk("forward"), back: walk("back").reverse() };
  const { min, max } = byId("slider");
  location.hash = max;
  goToAddress();
  Object.assign(said, { slider: [min, max].map(Number), address: Number(byId("slider").value) });
  document.body.append(element("pre", { id: "said" }, JSON.stringify(said)));
})();
