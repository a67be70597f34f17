// Runs beside a frame with the year's page. It scrolls where a picture is wanted, and asks the page
// whether it fits and sorts; what fails is left in the attribute data-failed.
onload = () => {
  const frame = document.querySelector("iframe");
  const page = frame.contentDocument;
  const view = frame.contentWindow;
  const failed = [];
  const check = (name, is) => is || failed.push(name);
  const root = page.documentElement;

  check("no sideways scrolling", root.scrollWidth <= root.clientWidth);
  const table = page.querySelector(".scroll");
  check("the table in its box", table.getBoundingClientRect().right <= root.clientWidth);
  const wide = [...page.querySelectorAll("h1, h2, p, dl, .plot, .plot li")];
  check("all within", wide.every(e => e.getBoundingClientRect().right <= root.clientWidth + 0.5));
  const labels = [...page.querySelectorAll(".plot li > span, td, th, .axis text")];
  check("legible", labels.every(e => parseFloat(view.getComputedStyle(e).fontSize) >= 10));
  check("nothing is fetched", performance.getEntriesByType("resource").length <= 1 &&
    view.performance.getEntriesByType("resource").length === 0);
  check("names are text", !page.querySelector("[onload], td b, th b, li b"));

  const titles = [...page.querySelectorAll("thead th")];
  const column = name => titles.findIndex(title => title.textContent.startsWith(name));
  const cells = i => [...page.querySelectorAll("tbody tr")].map(row => row.cells[i]);
  const numbers = i => cells(i).filter(c => c.dataset.n !== undefined).map(c => +c.dataset.n);
  const rises = list => list.every((v, i) => i === 0 || list[i - 1] <= v);
  const bars = () => [...page.querySelectorAll(".plot li")].map(bar => bar.dataset.row);
  const click = i => titles[i].querySelector("button").click();

  for (const name of ["Runs", "Lowest", "Mean", "Highest"]) {
    const i = column(name);
    click(i);
    check(`${name} from the largest`, rises(numbers(i).reverse()));
    check(`${name} says so`, titles[i].getAttribute("aria-sort") === "descending");
    click(i);
    check(`${name} from the least`, rises(numbers(i)));
    check(`${name} says that too`, titles[i].getAttribute("aria-sort") === "ascending");
    const shown = cells(i).map(cell => cell.dataset.n);
    const first = shown.indexOf(undefined);
    check(`${name}: none is last`, first < 0 || shown.slice(first).every(n => n === undefined));
  }
  const read = [...page.querySelectorAll("tbody tr")]
    .filter(row => row.cells[column("Lowest")].dataset.n !== undefined);
  check("the plot in the table's order", String(read.map(r => r.dataset.row)) === String(bars()));
  click(column("Program"));
  check("programs by name", rises(cells(column("Program")).map(cell => cell.textContent)));
  click(column("Hash"));
  check("by hash again", rises(cells(column("Hash")).map(cell => cell.textContent)));
  const button = titles[0].querySelector("button");
  button.focus();
  check("keys reach a button", page.activeElement === button && button.tabIndex === 0);
  button.blur();

  // A focus scrolls too.
  if (to === "top") view.scrollTo(0, 0);
  if (to === "table") page.querySelector("#table").scrollIntoView();
  if (to === "middle") view.scrollTo(0, root.scrollHeight / 4);
  document.body.dataset.failed = failed.join("; ");
};
