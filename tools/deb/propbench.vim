" Vim syntax file of propbench's sessions: commands, values, marks, numbers and notes.
if exists('b:current_syntax')
    finish
endif

syntax case match
" a name may have any letters, and a word ends at a blank or a mark
syntax match propbenchNote /^\s*#.*$/
syntax match propbenchCommand /^\s*\%(domain\|relation\|cell\|define\|attach\|fix\|tell\|kick\|bring\|forget\|choose\|limit\|ask\|why\|core\|settle\|worldview\|nogoods\|step\|how\|list\)\ze\%([[:blank:]{};=*]\|$\)/
syntax match propbenchNumber /\%(^\|[[:blank:]{};=*]\)\zs-\?\d\+\%(\.\.-\?\d\+\)\?\ze\%([[:blank:]{};=*]\|$\)/
syntax match propbenchWord /\%([[:blank:]{};=*]\)\zs\%(by\|local\|like\|or\|span\|truth\|symbol\)\ze\%([[:blank:]{};=*]\|$\)/
syntax match propbenchValue /\%([[:blank:]{};=*]\)\zs\%(yes\|no\)\ze\%([[:blank:]{};=*]\|$\)/
syntax match propbenchMark /[{};=*]/

highlight default link propbenchNote Comment
highlight default link propbenchCommand Statement
highlight default link propbenchNumber Number
highlight default link propbenchWord Keyword
highlight default link propbenchValue Constant
highlight default link propbenchMark Delimiter

let b:current_syntax = 'propbench'
