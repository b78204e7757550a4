" µspec models and queries, and the litmus tests and patterns of pipecheck, which share their endings with other files.
autocmd BufRead,BufNewFile *.uspec,*.query setfiletype uspec
autocmd BufRead,BufNewFile *.test,*.pattern if join(getline(1, 50), "\n") =~# '\(^\|\n\)\s*Litmus2\?\s\+"' | setfiletype litmustest | endif
autocmd BufRead,BufNewFile *.litmus if getline(1) =~# '^X86\(_64\)\?\s' | setfiletype litmus | endif
