" Texts of the verifier caper.
autocmd BufNewFile,BufRead *.cap setfiletype caper
