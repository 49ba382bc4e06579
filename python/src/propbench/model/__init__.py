"""The model behind a workbench: what a user states, and the lines that say it to the program.

What a user writes are `expressions` and `cells`; `nodes` are the same as data. Of a node, `meaning`
has the value at points, `writing` the text, `core` the same in fewer operations; `ranges`,
`definedness` and `harmless` tell what its cells' declarations say of it.

`events` are what was stated, in order. A `network` has them together with the session, `script`
turns them into lines: by `translation`, with `truths`, `numbers` and `relations`, each constraint
within its `context`, written by a `writer` with the names of a `vocabulary`.

Replies are read by `reading`, as `answers`, in tables by `tabling`. A conflict is made small by
`shrinking`, and `blaming` adds what else is known of it. `saving` and `storing` are for files, and
`seam` is what questions use.
"""
