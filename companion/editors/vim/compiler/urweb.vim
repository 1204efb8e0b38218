" :make P checks the project P; the place of a refusal is read from its explanation. g:urweb_command is the script where it is not on the path.
if exists('current_compiler')
  finish
endif
let current_compiler = 'urweb'
let s:saved = &cpo
set cpo&vim
if exists(':CompilerSet') != 2
  command -nargs=* CompilerSet setlocal <args>
endif
execute 'CompilerSet makeprg=' . escape(get(g:, 'urweb_command', 'urweb'), ' \|"') . '\ check'
CompilerSet errorformat=%f:%l:%c:\ E%n\ %m,%-G%.%#
let &cpo = s:saved
unlet s:saved
