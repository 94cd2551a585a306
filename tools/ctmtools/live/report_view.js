// The page of `report` within the page that is live: drawn anew as a whole where it is laid out otherwise, else only its values.

export class ReportView {
  constructor(box, template) {
    Object.assign(this, { box, template, page: null, shape: null, listeners: null, spaceIsDrawn: () => {} });
  }
  // Takes the data of a page.
  take(data) {
    if (this.page && data.shape === this.shape && !data.alone) this.page.takeAll(data);
    else this.begin(data);
    this.box.classList.remove("before");
  }
  // Takes other frames of the report at hand.
  takePicture(report) {
    if (this.page) this.page.takePicture(report);
    this.box.classList.remove("before");
  }
  // What is shown is of before a fault.
  isOfBefore() { this.box.classList.add("before"); }

  begin(data) {
    const kept = this.page && this.kept(), top = scrollY;
    if (this.page) this.page.stop();
    if (this.listeners) this.listeners.abort();
    this.listeners = new AbortController();
    this.box.replaceChildren(this.template.content.cloneNode(true));
    const { signal } = this.listeners, [listen, media] = [listener(window, signal), mediaOf(signal)];
    const at = { ...data.opening, report: data.reports.length - 1 };
    this.page = reportPage({ ...data, opening: at }, listen, media);
    this.shape = data.shape;
    this.page.whenSpaceIsDrawn(this.spaceIsDrawn);
    this.page.takeState(kept ? this.again(kept, data.reports.length - 1) : {});
    scrollTo(scrollX, top);
  }
  // What was chosen in the page that stands.
  kept() {
    const { frame, quantity, road, cell, measure } = this.page.state;
    return { view: this.page.viewName(), chosen: { frame, quantity, road, cell, measure } };
  }
  again({ view, chosen }, last) {
    const found = this.page.viewNamed(view);
    return { ...chosen, report: found ? found.report : last, against: found ? found.against : null };
  }
  whenSpaceIsDrawn(then) { this.spaceIsDrawn = then; }
}
const listener = (target, signal) => (type, then) => target.addEventListener(type, then, { signal });
const mediaOf = signal => query => {
  const found = matchMedia(query);
  return { get matches() { return found.matches; }, addEventListener: listener(found, signal) };
};
