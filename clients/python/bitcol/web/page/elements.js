// Elements of the page: finding and creating them.

/** The element with this id. */
export function find(id) {
  return document.getElementById(id);
}

/** A new element with these properties and children. Names with `-`, and `role`, are attributes; texts become text. */
export function make(tag, properties = {}, ...children) {
  const element = document.createElement(tag);
  for (const [name, value] of Object.entries(properties)) {
    if (name.includes("-") || name === "role") element.setAttribute(name, value);
    else element[name] = value;
  }
  element.append(...children);
  return element;
}

const numbers = new Intl.NumberFormat("en");

/** `1 row`, `1,000 rows`. */
export function counted(number, what) {
  return `${numbers.format(number)} ${what}${number === 1 ? "" : "s"}`;
}
