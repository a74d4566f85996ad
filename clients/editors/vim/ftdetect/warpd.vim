" Texts of warpd's programs.
autocmd BufRead,BufNewFile *.lf setfiletype warpd
