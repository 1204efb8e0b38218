" Sources, signatures and project files of Ur/Web.
autocmd BufNewFile,BufRead *.ur,*.urs setfiletype urweb
autocmd BufNewFile,BufRead *.urp setfiletype urwebproject
