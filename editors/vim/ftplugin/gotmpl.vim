" Vim and Neovim: comments, and `:make`, which checks the template in the window.
if exists("b:did_ftplugin")
  finish
endif
let b:did_ftplugin = 1
setlocal commentstring={{/*%s*/}}
compiler tmpl
let b:undo_ftplugin = "setlocal commentstring< makeprg< errorformat<"
