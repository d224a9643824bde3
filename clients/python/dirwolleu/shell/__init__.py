"""The commands of `python3 -m dirwolleu`, in the manner of `zk_shell`: the same names, options, statuses, sentences and keys of JSON."""
