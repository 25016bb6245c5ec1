# Completion of boruvka's arguments in fish. `make install` puts it where fish looks for it.
# To try it: source completions/boruvka.fish

complete -c boruvka -l plain -d "Solve without workers"
complete -c boruvka -l threads -x -a "1 2 4 8 16 32 64" -d "With --plain, use up to N threads, 1 to 64"
complete -c boruvka -l workers -x -a "0 1 2 4 8 16 32 64" -d "Number of workers that scan the shards, 0 to 64"
complete -c boruvka -l shards -x -a "1 2 4 8 16 32 64 128 256 512 1024 2048 4096" -d "Number of shards that the edges are split into, 1 to 4096"
complete -c boruvka -l report -d "Print counts and the total weight to standard error"
complete -c boruvka -l progress -d "Show on standard error how much was read"
complete -c boruvka -s h -l help -d "Print the help"
complete -c boruvka -s V -l version -d "Print the version"
