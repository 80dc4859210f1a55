" Vim syntax file for texts of the language (*.own).
" Copy syntax/ and ftdetect/ into your Vim directory.
if exists("b:current_syntax")
  finish
endif

syntax case match

" a note goes up to the line's end
syntax match ownNote "#.*$" contains=ownTodo
syntax keyword ownTodo contained TODO

" a token is a longest run of letters, digits and _
syntax match ownNumber "\<[0-9]\+\>"
syntax match ownBadNumber "\<[0-9]\+[A-Za-z_][A-Za-z0-9_]*\>"
syntax match ownConstructor "\<[A-Z][A-Za-z0-9_]*\>"
syntax match ownCall "\<[a-z_][A-Za-z0-9_]*\>\ze\s*("
syntax match ownFunction "\%(\<fn\s\+\)\@<=[a-z_][A-Za-z0-9_]*"
syntax match ownDataName "\%(\<data\s\+\)\@<=[a-z_][A-Za-z0-9_]*"

syntax keyword ownItem data fn
syntax keyword ownItem drop by
syntax keyword ownStatement let put give
syntax keyword ownChoice if else while
syntax keyword ownAccess take view edit open inside
syntax keyword ownType int box ref mut
syntax keyword ownInput get

syntax match ownOperator "==\|[=<+*/%&|-]"

syntax region ownBlock start="{" end="}" transparent fold

highlight default link ownNote Comment
highlight default link ownTodo Todo
highlight default link ownNumber Number
highlight default link ownBadNumber Error
highlight default link ownConstructor Constant
highlight default link ownCall Function
highlight default link ownFunction Function
highlight default link ownDataName Type
highlight default link ownItem Structure
highlight default link ownStatement Statement
highlight default link ownChoice Conditional
highlight default link ownAccess Keyword
highlight default link ownType Type
highlight default link ownInput Keyword
highlight default link ownOperator Operator

let b:current_syntax = "own"
