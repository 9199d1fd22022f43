"""How the page looks, in a browser and on paper."""

STYLE = """
:root { --ink: #1a1a1a; --soft: #666; --rule: #ddd; --link: #1f4e79; --ground: #f7f7f4; }
* { box-sizing: border-box; }
body { margin: 0; color: var(--ink); background: #fff; font: 16px/1.5 Georgia, "Liberation Serif", serif; }
main { max-width: 78rem; margin: 0 auto; padding: 2rem 1.5rem 4rem; }
h1 { font-size: 2rem; margin: 0 0 .5rem; }
h2 { font-size: 1.5rem; margin: 3rem 0 .25rem; border-top: 2px solid var(--ink); padding-top: .5rem; }
h3 { font: bold .85rem/1.4 "DejaVu Sans Mono", Menlo, Consolas, monospace; margin: 2rem 0 0; border-top: 1px solid var(--rule); padding-top: .75rem; }
p { margin: .25rem 0 .75rem; max-width: 48rem; }
a { color: var(--link); text-decoration: none; }
a:hover { text-decoration: underline; }
code, .code { font-family: "DejaVu Sans Mono", Menlo, Consolas, monospace; font-size: .8rem; }
h2 span { color: var(--soft); margin-right: .4rem; }
.promise { font-size: 1.1rem; }
.about, .count, .uses { color: var(--soft); }
.again { padding-left: 2.75rem; }
.about { font-style: italic; margin-bottom: .5rem; }
.item { display: grid; grid-template-columns: minmax(0, 1fr) 17rem; gap: 0 1.5rem; margin: 0 0 .9rem; scroll-margin-top: .5rem; }
.item:target { background: #fff7d6; }
.text { position: relative; padding-left: 2.75rem; min-width: 0; }
.n { position: absolute; left: 0; color: var(--soft); font-size: .8rem; line-height: 1.6; }
.comment { margin: 0 0 .15rem; line-height: 1.4; }
.code { background: var(--ground); padding: .35rem .6rem; line-height: 1.45; border-left: 3px solid var(--rule); }
.said .code { border-left-color: var(--link); }
.l { display: block; padding-left: calc((var(--i) + 4) * 1ch); text-indent: -4ch; overflow-wrap: anywhere; white-space: pre-wrap; }
.c { color: var(--soft); font-family: Georgia, "Liberation Serif", serif; font-size: .9rem; font-style: italic; text-indent: 0; padding-left: calc(var(--i) * 1ch); }
.beside p { margin: 0 0 .4rem; font-size: .85rem; line-height: 1.35; border-left: 2px solid #b9c7d4; padding-left: .6rem; }
.beside .uses { border: 0; padding-left: .6rem; font-size: .72rem; overflow-wrap: anywhere; }
.beside .uses a { color: var(--soft); white-space: nowrap; }
table { border-collapse: collapse; margin: 1rem 0; font-size: .95rem; }
th, td { text-align: left; vertical-align: top; padding: .25rem .9rem .25rem 0; border-bottom: 1px solid var(--rule); }
th { font-weight: normal; color: var(--soft); font-size: .85rem; }
table:not(.key) td:nth-child(n+3), table:not(.key) th:nth-child(n+3) { text-align: right; font-variant-numeric: tabular-nums; }
.key td:first-child { white-space: nowrap; }
.index { columns: 4 14rem; font-size: .8rem; }
.index span { color: var(--soft); }
@media screen and (max-width: 60rem) {
  .item { grid-template-columns: minmax(0, 1fr); }
  .beside { order: -1; padding-left: 2.75rem; }
  .beside .uses { display: none; }
  .key td:first-child { white-space: normal; }
}
@page { size: A4; margin: 14mm 12mm 16mm; @bottom-right { content: counter(page); font: 8pt Georgia, "Liberation Serif", serif; } }
@media print {
  html { font-size: 9pt; }
  body { font-size: 9pt; }
  main { padding: 0; max-width: none; }
  a { color: inherit; }
  code, .code { font-size: 7pt; }
  .code { padding: 2pt 4pt; }
  .c { font-size: 8pt; }
  p { max-width: none; }
  h2 { border: 0; margin-top: 0; }
  .item { grid-template-columns: minmax(0, 1fr) 4.4cm; gap: 0 .4cm; margin-bottom: 6pt; }
  .text { padding-left: .8cm; }
  .n { font-size: 7.5pt; }
  .beside p { font-size: 7.5pt; }
  .beside .uses { font-size: 6.5pt; }
  .l { break-inside: avoid; }
  h2, h3, .about, .comment, .promise, .count { break-after: avoid; }
  tr, .item { break-inside: avoid; }
  .item.long { break-inside: auto; }
  section { break-before: page; }
}
"""
