// Sorts the table, and the plot with it. Without this, both stand by hash.
(() => {
  const body = document.querySelector("tbody");
  const plot = document.querySelector(".plot ol");
  const titles = [...document.querySelectorAll("thead th")];
  const bars = new Map([...(plot ? plot.children : [])].map(bar => [bar.dataset.row, bar]));

  // A number where the cell has one, its text otherwise, and null for none, which
  // stands last in either order.
  const value = (row, column) => {
    const cell = row.cells[column];
    if (cell.dataset.n !== undefined) return Number(cell.dataset.n);
    return cell.className === "soft" ? null : cell.textContent || null;
  };
  const compare = (a, b) => (typeof a === "number" ? a - b : a < b ? -1 : a > b ? 1 : 0);

  const sort = (column, descending) => {
    const rows = [...body.rows].map(row => [value(row, column), row]);
    const [known, unknown] = [rows.filter(([v]) => v !== null), rows.filter(([v]) => v === null)];
    known.sort(([a], [b]) => (descending ? compare(b, a) : compare(a, b)));
    for (const [, row] of known.concat(unknown)) {
      body.append(row);
      const bar = bars.get(row.dataset.row);
      if (bar) plot.append(bar);
    }
    titles.forEach((title, i) => {
      const order = descending ? "descending" : "ascending";
      title.setAttribute("aria-sort", i === column ? order : "none");
    });
  };

  titles.forEach((title, column) => {
    const button = document.createElement("button");
    button.type = "button";
    button.append(...title.childNodes);
    title.append(button);
    button.addEventListener("click", () => {
      // Numbers are wanted from the largest, texts from the first.
      const first = title.className !== "text";
      const sorted = title.getAttribute("aria-sort");
      sort(column, sorted === "ascending" ? true : sorted === "descending" ? false : first);
    });
  });
})();
