" Scripts of pth_play begin with a line `pth 1` or `pth 2`; other files with this suffix belong to Python and PyTorch.
autocmd BufNewFile *.pth setfiletype pth
autocmd BufRead *.pth if getline(1) =~# '^pth [12]$' | setfiletype pth | endif
autocmd BufNewFile,BufRead *.transcript setfiletype pthtranscript
