//! How the page looks: text and marks carry everything, colour is added.

pub const STYLE: &str = "\
html { color-scheme: light; font: 15px/1.4 system-ui, \"DejaVu Sans\", sans-serif; }
* { box-sizing: border-box; }
body { margin: 0; background: #fff; color: #1a1a1a; }
main { max-width: 64rem; margin: 0 auto; padding: 1rem; }
h1 { margin: 0; font-size: 1.7rem; line-height: 1.2; }
h2 { margin: .9rem 0 .3rem; font-size: 1.1rem; border-bottom: 1px solid #767676; }
p { margin: .25rem 0; overflow-wrap: anywhere; }
header { border: 3px solid; border-left-width: .9rem; padding: .5rem .9rem; }
header.accepted { border-color: #0b6b33; background: #eaf6ee; }
header.failed { border-color: #a3131f; background: #fcecec; }
header.refused { border-color: #8a4b00; background: #fdf3e3; }
header.accepted h1 { color: #0b6b33; }
header.failed h1 { color: #a3131f; }
header.refused h1 { color: #8a4b00; }
.pair { display: grid; grid-template-columns: minmax(0, 1fr) minmax(0, 1fr); gap: 0 1.4rem; }
.three, .four { display: grid; grid-template-columns: repeat(3, minmax(0, 1fr)); gap: .1rem 1.4rem; align-items: start; }
.four { grid-template-columns: repeat(4, minmax(0, 1fr)); }
table { width: 100%; border-collapse: collapse; font-size: .9rem; }
caption { text-align: left; padding: .1rem 0 .2rem; color: #454545; }
th, td { text-align: left; vertical-align: top; padding: .1rem .5rem .1rem 0; border-bottom: 1px solid #d4d4d4; }
td { overflow-wrap: anywhere; font-variant-numeric: tabular-nums; }
.three td { overflow-wrap: normal; }
thead th { border-bottom: 1px solid #767676; }
th, .mark { white-space: nowrap; font-weight: 600; }
td:last-child, th:last-child { padding-right: 0; }
tr.passed .mark { color: #0b6b33; }
tr.failed, tr.here { outline: 2px solid #a3131f; }
tr.failed .mark { color: #a3131f; }
tr.open .mark { color: #595959; font-weight: 400; }
tr.here td { font-weight: 600; }
.bar { margin: .3rem 0 .4rem; font-size: .9rem; }
.bar svg { display: block; width: 100%; height: .75rem; }
.figures { font-variant-numeric: tabular-nums; overflow-wrap: anywhere; }
.over { font-weight: 600; color: #a3131f; }
code { font: .9em \"DejaVu Sans Mono\", monospace; overflow-wrap: anywhere; }
.sign { display: grid; grid-template-columns: 2fr 1fr 2fr; gap: 0 1.4rem; margin-top: 2.6rem; }
.sign div { border-top: 1px solid #1a1a1a; padding-top: .1rem; font-size: .9rem; }
ul { margin: .2rem 0; padding-left: 1.2rem; font-size: .9rem; overflow-wrap: anywhere; }
dl { margin: .2rem 0; font-size: .9rem; }
dl div { border-bottom: 1px solid #d4d4d4; padding: .1rem 0; }
dt { display: inline; font-weight: 600; }
dd { display: inline; margin: 0; overflow-wrap: anywhere; }
dd small { display: block; color: #454545; font-size: inherit; }
footer { margin-top: .8rem; font-size: .9rem; color: #454545; }
@media screen and (max-width: 44rem) {
  main { padding: .6rem; }
  .pair, .three, .four { grid-template-columns: minmax(0, 1fr); }
  .states thead { display: none; }
  .states tr, .states th, .states td { display: block; padding: 0; border: 0; }
  .states tr { border-bottom: 1px solid #d4d4d4; }
}
@page { size: A4; margin: 12mm; }
@media print {
  html { font-size: 11pt; line-height: 1.3; }
  h1 { font-size: 16pt; }
  h2 { font-size: 13pt; break-after: avoid; }
  table, dl, ul, .bar, .figures, .sign div, footer { font-size: 10pt; }
  code { font-size: 9pt; }
  main { max-width: none; padding: 0; }
  .part + .part { break-before: page; }
  .pair { display: block; }
  .three { grid-template-columns: repeat(3, minmax(0, 1fr)); gap: .1rem 4mm; }
  .three table { font-size: 9pt; }
  .four { grid-template-columns: repeat(3, minmax(0, 1fr)); }
  thead { display: table-header-group; }
  header, table, tr, li, dl div, .bar, .sign { break-inside: avoid; }
  table.long { break-inside: auto; }
}
";
