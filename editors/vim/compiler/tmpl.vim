" Vim: `:compiler tmpl` and `:make` check the template in the window, and jump to what is wrong.
if exists("current_compiler")
  finish
endif
let current_compiler = "tmpl"
CompilerSet makeprg=tmpl-check\ %:S
CompilerSet errorformat=%f:%l:%c:\ %trror:\ %m,%f:%l:%c:\ %tarning:\ %m,%-Gtmpl-check:\ %m
