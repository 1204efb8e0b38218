" The colours of a project file: directives before an empty line, and modules.
if exists('b:current_syntax')
  finish
endif
syntax match urwebprojectComment "^\s*#.*$"
syntax match urwebprojectDirective "^\s*\%(database\|sql\)\ze[ \t]"
syntax match urwebprojectDirective "^\s*debug\s*$"
syntax match urwebprojectModule "^\s*\%(debug\s*$\)\@!\l[A-Za-z0-9_]*\s*$"
highlight default link urwebprojectComment Comment
highlight default link urwebprojectDirective PreProc
highlight default link urwebprojectModule Include
let b:current_syntax = 'urwebproject'
