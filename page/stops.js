// Tab goes from group to group; within one the arrows up and down do. A group takes the focus itself, and its controls
// are no stops of Tab.

const STOPS = "[data-stops]";
const CONTROLS = "button, summary, a[href]";

class Stops {
  constructor({ ending: { signal } }) {
    this.groups = [...document.querySelectorAll(STOPS)];
    document.addEventListener("keydown", (event) => this.keyed(event), { signal });
  }

  /** The controls of a group that are shown. @private */
  controls(group) {
    return [...group.querySelectorAll(CONTROLS)].filter((one) => one.offsetParent !== null && !one.disabled);
  }

  /** @private */
  keyed(event) {
    const by = { ArrowUp: -1, ArrowDown: 1 }[event.key], group = event.target.closest?.(STOPS);
    if (by === undefined || !group || event.defaultPrevented || event.ctrlKey || event.altKey || event.metaKey) return;
    event.preventDefault();
    const controls = this.controls(group), at = controls.indexOf(event.target);
    const next = at < 0 ? (by > 0 ? 0 : controls.length - 1) : Math.max(0, Math.min(controls.length - 1, at + by));
    controls[next]?.focus();
  }

  /** Lets Tab stop at the groups that have a control. */
  paint() {
    for (const group of this.groups) setAttribute(group, "tabindex", group.querySelector(CONTROLS) ? 0 : null);
  }
}
