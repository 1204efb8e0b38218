" How Ur/Web is edited: comments, names with a quote in them, and what :make runs.
if exists('b:did_ftplugin')
  finish
endif
let b:did_ftplugin = 1
setlocal commentstring=(*\ %s\ *)
setlocal comments=s1:(*,mb:*,ex:*)
setlocal iskeyword+='
setlocal expandtab shiftwidth=2
compiler urweb
let b:undo_ftplugin = 'setlocal commentstring< comments< iskeyword< expandtab< shiftwidth< makeprg< errorformat<'
