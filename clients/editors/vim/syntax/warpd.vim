" The colours of texts of warpd's programs: the structure of Lingua Franca, with warpd's statements in {= =}.
if exists('b:current_syntax')
  finish
endif

syntax case match
syntax sync fromstart

syntax keyword warpdStructure reactor main new extends target import const enum struct
syntax keyword warpdMember state input output logical action timer method function
syntax keyword warpdReaction reaction
syntax keyword warpdWord after
syntax match warpdWord "\<\%(initial\s\+\)\?mode\ze\s\+[A-Za-z_`]"
syntax match warpdWord "\<\%(interleaved\|reset\|history\)\ze\s*("
syntax match warpdWord "\<reset\ze\s\+state\>"
syntax match warpdWord "\<from\ze\s*\""
syntax match warpdWord "\<as\ze\s\+[A-Za-z_`]\w*`\?\s*\%(,\|from\>\)"
syntax keyword warpdTrigger startup shutdown
syntax keyword warpdBoolean true false
syntax match warpdType ":\s*\zs\<\%(int\|bool\|time\|fixed\)\>"
syntax match warpdName "\%(\<reactor\|\<new\%(\[[^]]*\]\)\?\|\<extends\|\<mode\)\s\+\zs[A-Za-z_]\w*"
syntax match warpdAttribute "@[a-z]\+"
syntax match warpdQuoted "`[A-Za-z]\w*`"
syntax match warpdNumber "\<\d[A-Za-z0-9_.]*"
syntax match warpdTime "\<\d\+\s*\%(ns\%(ecs\?\)\?\|us\%(ecs\?\)\?\|ms\%(ecs\?\)\?\|s\%(ecs\?\|econds\?\)\?\|min\%(ute\)\?s\?\|h\%(ours\?\)\?\|d\%(ays\?\)\?\|weeks\?\)\>"
syntax match warpdArrow "->"
syntax region warpdString start=+"+ end=+"+ oneline
syntax match warpdComment "//.*$" contains=warpdTodo,@Spell
syntax region warpdComment start="/\*" end="\*/" contains=warpdTodo,@Spell
syntax region warpdTest matchgroup=warpdStructure start=+\<test\>\%(\s*"\)\@=+ matchgroup=NONE end=+}+
    \ contains=warpdTestWord,warpdString,warpdComment,warpdBoolean,warpdNumber,warpdTime,warpdQuoted
syntax match warpdTestWord "\<in\s\+every\s\+order\>" contained
syntax match warpdTestWord contained
    \ "[.`]\@1<!\<\%(expect\|draw\|withdraw\|ask\|always\|puts\|nothing\|at\|to\|every\|of\|lost\)\>\%(\s*[.[]\)\@!"
syntax keyword warpdTodo TODO FIXME XXX contained

syntax region warpdBody matchgroup=warpdBrace start="{=" end="=}" contains=@warpdStatement
syntax cluster warpdStatement contains=warpdControl,warpdLet,warpdCall,warpdBoolean,warpdTrigger,warpdNumber,warpdTime,warpdQuoted,warpdBodyComment,warpdType
syntax keyword warpdControl if else for while return break continue contained
syntax keyword warpdLet let contained
syntax match warpdLet "\<var\ze\s\+\w" contained
syntax match warpdCall "\<\%(put\|schedule\|request_stop\|set_mode\|present\|min\|max\|abs\|clamp\|floor\|round\|fixed\|among\|mix\|muldiv\)\ze\s*(" contained
syntax match warpdBodyComment "//\%(\%(=}\)\@!.\)*" contained contains=warpdTodo,@Spell
syntax region warpdBodyComment start="/\*" end="\*/" end="=}"me=s-1 contained contains=warpdTodo,@Spell

highlight default link warpdStructure Structure
highlight default link warpdMember StorageClass
highlight default link warpdReaction Keyword
highlight default link warpdWord Keyword
highlight default link warpdTrigger Constant
highlight default link warpdBoolean Boolean
highlight default link warpdType Type
highlight default link warpdName Type
highlight default link warpdAttribute PreProc
highlight default link warpdQuoted Identifier
highlight default link warpdNumber Number
highlight default link warpdTime Number
highlight default link warpdArrow Operator
highlight default link warpdString String
highlight default link warpdComment Comment
highlight default link warpdBodyComment Comment
highlight default link warpdTodo Todo
highlight default link warpdBrace Delimiter
highlight default link warpdControl Conditional
highlight default link warpdLet Statement
highlight default link warpdCall Function
highlight default link warpdTestWord Keyword

let b:current_syntax = 'warpd'
