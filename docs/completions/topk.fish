# fish completion of topk, for <prefix>/share/fish/vendor_completions.d.

complete -c topk -f

complete -c topk -n __fish_use_subcommand -a run -d 'answer query lines over the lists of a catalog'
complete -c topk -n __fish_use_subcommand -a one -d 'answer the query of a bundle'
complete -c topk -n __fish_use_subcommand -a compare -d 'tell what each algorithm reads for the query of a bundle'
complete -c topk -n __fish_use_subcommand -a judge -d 'check a certificate'
complete -c topk -n __fish_use_subcommand -a make -d 'write a made table'
complete -c topk -n __fish_use_subcommand -a bulk -d 'run made queries over a made table'
complete -c topk -n __fish_use_subcommand -a node -d 'serve a list of a catalog over HTTP'
complete -c topk -n __fish_use_subcommand -a serve -d 'answer query lines over HTTP'

complete -c topk -n '__fish_seen_subcommand_from run node serve' -F
complete -c topk -n '__fish_seen_subcommand_from make bulk' -x -l start -d 'the number that the table is made from'
complete -c topk -n '__fish_seen_subcommand_from make bulk' -x -l count -d 'how many objects'
complete -c topk -n '__fish_seen_subcommand_from make bulk' -x -l lists -d 'how many lists'
complete -c topk -n '__fish_seen_subcommand_from bulk' -x -l queries -d 'how many queries, 1 to 64'
complete -c topk -n '__fish_seen_subcommand_from run bulk serve' -x -l workers -d 'how many threads answer the lines, 1 to 32'
complete -c topk -n '__fish_seen_subcommand_from run bulk serve' -x -l page -d 'how many rows are read at once, 1 to 10000'
complete -c topk -n '__fish_seen_subcommand_from run bulk serve' -x -l ahead -d 'how many pages are read before they are wanted, 0 to 100'
complete -c topk -n '__fish_seen_subcommand_from node serve' -x -l at -d 'the port, 1 to 65535'
complete -c topk -n '__fish_seen_subcommand_from node serve' -x -l conns -d 'how many connections are taken, 1 to 1000000'
complete -c topk -n '__fish_seen_subcommand_from node' -x -l version -d 'the version that replies state'
