autocmd BufNewFile,BufRead *.ipa setfiletype ipa
