" Tupfiles as this tup reads them (man tup). Words of the other tup that this one doesn't have are shown as errors.
if exists('b:current_syntax')
    finish
endif

syntax match tupContinued '\\$' contained
syntax match tupComment '^\s*#.*' contains=tupTodo
syntax keyword tupTodo TODO XXX FIXME contained

syntax match tupVariable '\$([A-Za-z0-9_]\+)'
syntax match tupSetting '@([A-Za-z0-9_]\+)'
syntax match tupFlag '%[fbBoeidgO%]'
syntax match tupFlag '%<[^>]*>'
syntax match tupGroup '\%([^ \t<>%|]*/\)\?<[^ \t<>]\+>' contained
syntax match tupBin '{[^ \t{}]\+}' contained
syntax match tupOrder '|' contained
syntax match tupBar '|>' contained
syntax match tupShown '\%(|>\s*\)\@<=^[^^]*^' contained contains=tupVariable,tupSetting,tupFlag
syntax keyword tupForeach foreach contained
syntax match tupMacroUse '!\k\+' contained

" A rule and a macro go on as long as lines end in a backslash.
syntax region tupRule matchgroup=tupColon start='^\s*:' skip='\\$' end='$' keepend
    \ contains=tupForeach,tupBar,tupOrder,tupGroup,tupBin,tupMacroUse,tupShown,tupVariable,tupSetting,tupFlag,tupContinued
syntax region tupMacro matchgroup=tupMacroName start='^\s*![A-Za-z0-9_]\+' skip='\\$' end='$' keepend
    \ contains=tupBar,tupOrder,tupGroup,tupBin,tupShown,tupVariable,tupSetting,tupFlag,tupContinued,tupAssign
syntax match tupAssign '[:+]\?=' contained
syntax match tupName '^\s*[A-Za-z0-9_]\+\ze\s*[:+]\?='

syntax match tupConditional '^\s*\%(ifeq\|ifneq\|ifdef\|ifndef\|else\|endif\)\>'
syntax match tupInclude '^\s*\%(include_rules\|include\)\>'
syntax match tupFault '^\s*error\>'
syntax match tupMissing '^\s*\%(run\|preload\|export\|import\)\>\|^\s*\.gitignore\>'

highlight default link tupComment Comment
highlight default link tupTodo Todo
highlight default link tupContinued Special
highlight default link tupVariable Identifier
highlight default link tupSetting Identifier
highlight default link tupFlag Special
highlight default link tupGroup Type
highlight default link tupBin Type
highlight default link tupBar Operator
highlight default link tupOrder Operator
highlight default link tupAssign Operator
highlight default link tupColon Statement
highlight default link tupForeach Statement
highlight default link tupMacroUse Macro
highlight default link tupMacroName Macro
highlight default link tupName Identifier
highlight default link tupShown String
highlight default link tupConditional PreCondit
highlight default link tupInclude Include
highlight default link tupFault Exception
highlight default link tupMissing Error

let b:current_syntax = 'tup'
