"""The style of the page: light, dark, narrow and on paper."""

STYLE = """
:root {
  --page: #ffffff; --text: #1b1f24; --quiet: #59626d; --rule: #d5dae0; --ground: #f3f5f8;
  --link: #0b57a4; --on-peak: #2368ad; --off-peak: #b5600c; --downward: #067a5b;
  --tier-1: #cbd5e0; --tier-2: #8297ae; --tier-3: #3b5068; --price: #8fa3b8; --missing: #b3261e;
}
@media (prefers-color-scheme: dark) {
  :root {
    --page: #14171a; --text: #e4e7ea; --quiet: #a3adb8; --rule: #383f47; --ground: #1d2227;
    --link: #86bcff; --on-peak: #67a9ea; --off-peak: #eba35f; --downward: #4fc7a3;
    --tier-1: #46525f; --tier-2: #7f93a8; --tier-3: #c3d0dd; --price: #66788b; --missing: #ff8a80;
  }
}
* { box-sizing: border-box; }
html { scroll-padding-top: 1rem; }
body {
  margin: 0 auto; max-width: 80rem; padding: 1.5rem 1.25rem 4rem; background: var(--page);
  color: var(--text); font: 1rem/1.5 system-ui, -apple-system, "Segoe UI", Roboto, "Helvetica Neue",
  Arial, sans-serif; font-variant-numeric: tabular-nums;
}
a { color: var(--link); }
:focus-visible { outline: 2px solid var(--link); outline-offset: 2px; }
.skip { position: absolute; left: -100rem; padding: .5rem 1rem; background: var(--page); }
.skip:focus { left: 1rem; top: 1rem; z-index: 2; }
h1, h2, h3 { line-height: 1.2; font-weight: 600; }
h1 { margin: .2rem 0; font-size: 2rem; }
h2 { margin: 0 0 .75rem; font-size: 1.4rem; }
h3 { margin: 2rem 0 .5rem; font-size: 1.05rem; }
p, ul { max-width: 75ch; }
caption, figcaption, th small { color: var(--quiet); }
.code { margin: 0; color: var(--quiet); }
nav ul {
  display: flex; flex-wrap: wrap; gap: .25rem 1.25rem; max-width: none; margin: 1rem 0 0;
  padding: .6rem 0; list-style: none; border-block: 1px solid var(--rule);
}
section { margin-top: 2.5rem; }
section.area { padding-top: 2rem; border-top: 2px solid var(--text); }
dl.totals {
  display: grid; grid-template-columns: repeat(auto-fit, minmax(11rem, 1fr)); gap: .75rem;
  margin: 0 0 1.25rem;
}
dl.totals div {
  padding: .7rem .9rem; background: var(--ground); border-left: 3px solid var(--rule);
}
dl.totals div.whole { border-left-color: var(--text); }
dl.totals dt { color: var(--quiet); font-size: .9rem; }
dl.totals dd { margin: 0; font-size: 1.35rem; font-weight: 600; }
dl.letters {
  display: grid; grid-template-columns: max-content 1fr; gap: .3rem 1rem; max-width: 75ch;
}
dl.letters dt { font-weight: 600; }
dl.letters dd { margin: 0; }
.wide { overflow-x: auto; margin: .75rem 0; }
table { border-collapse: collapse; font-size: .875rem; line-height: 1.35; }
caption {
  position: sticky; left: 0; max-width: calc(100vw - 2.5rem); padding: 0 0 .4rem; text-align: left;
}
@media (min-width: 40rem) { caption { white-space: nowrap; } }
tr.on-paper { display: none; }
th, td {
  padding: .28rem .5rem; text-align: right; white-space: nowrap;
  border-bottom: 1px solid var(--rule);
}
th { font-weight: 600; }
thead th { vertical-align: bottom; white-space: normal; }
table.dense { font-size: .8125rem; }
table.dense th, table.dense td { padding-inline: .4rem; }
thead tr:last-child th { border-bottom: 1px solid var(--text); }
thead th[scope=colgroup] {
  text-align: center; white-space: nowrap; border-left: 1px solid var(--rule);
}
tbody th, tfoot th { position: sticky; left: 0; background: var(--page); }
tfoot td, tfoot th { border-top: 1px solid var(--text); border-bottom: 0; font-weight: 600; }
th small { display: block; font-weight: 400; }
.word { text-align: left; }
.unbroken { white-space: nowrap; }
td.first, th.first { border-left: 1px solid var(--rule); }
td.none { color: var(--quiet); }
tr.peak td, tr.peak th { background: var(--ground); }
td b { font-weight: 600; }
td.hub small { display: inline-block; width: 1.1em; }
ul.sentences { max-width: none; font-size: .95rem; margin: .5rem 0; padding-left: 1.25rem; }
ul.sentences li { margin: .3rem 0; }
figure { margin: 0; }
.charts {
  display: grid; grid-template-columns: repeat(auto-fit, minmax(min(30rem, 100%), 1fr));
  gap: 1.5rem 2rem; margin: 1.25rem 0;
}
.charts .wide { margin: 0; }
figcaption { font-size: .875rem; }
svg { display: block; width: 100%; height: auto; }
svg.chart { min-width: 27rem; max-width: 42rem; }
svg.small-chart { max-width: 20rem; }
.note { max-width: 100ch; margin: .25rem 0 0; font-size: .8125rem; color: var(--quiet); }
svg text { font: 11px system-ui, -apple-system, "Segoe UI", Roboto, sans-serif; fill: var(--text); }
svg text.small { font-size: 10px; fill: var(--quiet); }
svg text.mark {
  font-size: 10px; font-weight: 600; paint-order: stroke; stroke: var(--page); stroke-width: 3px;
}
.ground { fill: var(--ground); }
.grid { stroke: var(--rule); fill: none; }
.zero { stroke: var(--text); fill: none; }
path.on-peak { fill: var(--on-peak); stroke: var(--on-peak); }
pattern .off-peak { fill: var(--off-peak); }
pattern .downward { fill: var(--downward); }
pattern .soft { fill-opacity: .22; }
.off-peak.edge { stroke: var(--off-peak); }
.downward.edge { stroke: var(--downward); }
.tier-1 { fill: var(--tier-1); }
.tier-2 { fill: var(--tier-2); }
.tier-3 { fill: var(--tier-3); }
.floor, .hundredth, .half { fill: none; stroke: var(--text); stroke-width: 1.2; }
.hundredth { stroke-dasharray: 2 3; }
.half { stroke-dasharray: 8 4; }
.price-bar { fill: var(--price); }
.weighted { fill: none; stroke: var(--text); stroke-width: 1.4; stroke-dasharray: 5 3; }
.missing { fill: none; stroke: var(--missing); stroke-width: 1.8; }
td.missing { color: var(--missing); font-weight: 700; }
.grid-of-hours {
  display: grid; grid-template-columns: repeat(auto-fill, minmax(min(16rem, 100%), 1fr));
  gap: 1.25rem 1.75rem; margin: 1rem 0; align-items: start;
}
.grid-of-shares {
  display: grid; grid-template-columns: repeat(auto-fill, minmax(min(25rem, 100%), 1fr));
  gap: 1rem 2rem; margin: .75rem 0; align-items: start;
}
.grid-of-shares table, .hour-prices table { width: 100%; }
.hour-prices b { color: var(--text); }
summary { cursor: pointer; font-size: .875rem; color: var(--link); }
.notice {
  max-width: 80ch; margin: 1.25rem 0; padding: .25rem 1.25rem; background: var(--ground);
  border: 1px solid var(--missing); border-left-width: 6px;
}
.notice p { margin: .6rem 0; }
footer {
  margin-top: 3rem; padding-top: .75rem; border-top: 1px solid var(--rule); color: var(--quiet);
  font-size: .875rem;
}
@page {
  size: A4 landscape; margin: 12mm 12mm 15mm;
  font: 8pt system-ui, -apple-system, "Segoe UI", Roboto, sans-serif; color: #333333;
  @bottom-right { content: "page " counter(page) " of " counter(pages); }
}
@media print {
  :root {
    --page: #ffffff; --text: #000000; --quiet: #333333; --rule: #aaaaaa; --ground: #f2f2f2;
    --link: #000000; --on-peak: #2368ad; --off-peak: #b5600c; --downward: #067a5b;
    --tier-1: #d5d5d5; --tier-2: #939393; --tier-3: #444444; --price: #999999; --missing: #000000;
  }
  html { font-size: 9.5pt; }
  body { max-width: none; padding: 0; }
  p, .notice { max-width: 115ch; }
  .skip, nav { display: none; }
  a { text-decoration: none; }
  section { margin-top: 1.1rem; }
  h3 { margin-top: 1.1rem; }
  section.area { break-before: page; padding-top: 0; border-top: 0; }
  h2, h3, caption, summary { break-after: avoid; }
  table, table.dense { font-size: 7.5pt; }
  th, td { padding: .1rem .32rem; }
  .hour-prices th, .hour-prices td { padding-block: 0; border-bottom: 0; }
  thead { display: table-header-group; }
  tfoot { display: table-row-group; }
  tr, figure, li, p, dl.totals { break-inside: avoid; }
  p + .grid-of-shares, p + .grid-of-hours { break-before: avoid; }
  tfoot tr { break-before: avoid; }
  #areas table, table.dense, table.together, .notice, #letters { break-inside: avoid; }
  tr.on-paper { display: table-row; }
  tr.on-paper th { text-align: left; border: 0; color: var(--text); }
  table.shares caption, .hour-prices caption { display: none; }
  caption { position: static; max-width: none; }
  .wide { overflow: visible; }
  tbody th, tfoot th { position: static; }
  .charts { grid-template-columns: 1fr 1fr; }
  .grid-of-shares { grid-template-columns: repeat(3, 1fr); gap: .75rem 1.25rem; }
  .grid-of-hours { grid-template-columns: repeat(4, 1fr); gap: .75rem 1.25rem; }
  svg.chart { min-width: 0; }
  summary { list-style: none; color: var(--text); }
  details::details-content { display: block; content-visibility: visible; }
}
"""
