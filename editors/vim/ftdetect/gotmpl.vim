" Vim and Neovim: templates of tmpl have the file type gotmpl.
autocmd BufNewFile,BufRead *.tmpl,*.gotmpl set filetype=gotmpl
