# Made by share/make from the table "Words" of docs/manual.md.
complete -c tau -f
complete -c tau -n "__fish_is_first_arg" -a run -d "runs a program and writes its run text"
complete -c tau -n "__fish_is_first_arg" -a check -d "tells whether each step is legal"
complete -c tau -n "__fish_is_first_arg" -a audit -d "tells whether each checkpoint is safe"
complete -c tau -n "__fish_is_first_arg" -a report -d "writes saved states and counts"
complete -c tau -n "__fish_is_first_arg" -a print -d "writes the program's forms in printing order"
complete -c tau -n "__fish_is_first_arg" -a gen -d "writes the generated program of a number"
complete -c tau -n "__fish_is_first_arg" -a drill -d "runs the generated program of a number and counts"
complete -c tau -n "__fish_is_first_arg" -a migrate -d "writes the run text of the same steps in version 2"
complete -c tau -n "__fish_is_first_arg" -a keep -d "runs a program and keeps each step in tau.journal"
complete -c tau -n "__fish_is_first_arg" -a resume -d "goes on with the run in tau.journal"
complete -c tau -n "__fish_is_first_arg" -a why -d "tells why a step holds, drops or falls"
complete -c tau -n "__fish_is_first_arg" -a cut -d "tells which checkpoints could all be kept"
complete -c tau -n "__fish_is_first_arg" -a draw -d "draws a picture of the run"
complete -c tau -n "__fish_is_first_arg" -a storm -d "tells how the program ends wherever nodes fail"
complete -c tau -n "__fish_is_first_arg" -a "help version decisions gather atlas prove"
complete -c tau -n "__fish_seen_subcommand_from help; and test (count (commandline -opc)) -eq 2" -a "run check audit report print gen drill migrate keep resume why cut draw storm"
complete -c tau -n "__fish_seen_subcommand_from run; and not __fish_seen_subcommand_from help" -l workers -x -d "how many workers run the program (1 to 32)"
complete -c tau -n "__fish_seen_subcommand_from run; and not __fish_seen_subcommand_from help" -l jobs -x -d "how many turns a worker has open at a time (1 to 16)"
complete -c tau -n "__fish_seen_subcommand_from run; and not __fish_seen_subcommand_from help" -l seed -x -d "the seed of the choices (0 to 18,446,744,073,709,551,615)"
complete -c tau -n "__fish_seen_subcommand_from run; and not __fish_seen_subcommand_from help" -l steps -x -d "the most steps that the run does (0 to 200,000)"
complete -c tau -n "__fish_seen_subcommand_from run; and not __fish_seen_subcommand_from help" -F
complete -c tau -n "__fish_seen_subcommand_from check; and not __fish_seen_subcommand_from help" -F
complete -c tau -n "__fish_seen_subcommand_from audit; and not __fish_seen_subcommand_from help" -F
complete -c tau -n "__fish_seen_subcommand_from report; and not __fish_seen_subcommand_from help" -F
complete -c tau -n "__fish_seen_subcommand_from print; and not __fish_seen_subcommand_from help" -F
complete -c tau -n "__fish_seen_subcommand_from migrate; and not __fish_seen_subcommand_from help" -F
complete -c tau -n "__fish_seen_subcommand_from keep; and not __fish_seen_subcommand_from help" -l workers -x -d "how many workers run the program (1 to 32)"
complete -c tau -n "__fish_seen_subcommand_from keep; and not __fish_seen_subcommand_from help" -l jobs -x -d "how many turns a worker has open at a time (1 to 16)"
complete -c tau -n "__fish_seen_subcommand_from keep; and not __fish_seen_subcommand_from help" -l seed -x -d "the seed of the choices (0 to 18,446,744,073,709,551,615)"
complete -c tau -n "__fish_seen_subcommand_from keep; and not __fish_seen_subcommand_from help" -l steps -x -d "the most steps that the run does (0 to 200,000)"
complete -c tau -n "__fish_seen_subcommand_from keep; and not __fish_seen_subcommand_from help" -l over -d "writes over a tau.journal that is no journal"
complete -c tau -n "__fish_seen_subcommand_from keep; and not __fish_seen_subcommand_from help" -F
complete -c tau -n "__fish_seen_subcommand_from resume; and not __fish_seen_subcommand_from help" -l workers -x -d "how many workers run the program (1 to 32)"
complete -c tau -n "__fish_seen_subcommand_from resume; and not __fish_seen_subcommand_from help" -l jobs -x -d "how many turns a worker has open at a time (1 to 16)"
complete -c tau -n "__fish_seen_subcommand_from resume; and not __fish_seen_subcommand_from help" -l seed -x -d "the seed of the choices (0 to 18,446,744,073,709,551,615)"
complete -c tau -n "__fish_seen_subcommand_from resume; and not __fish_seen_subcommand_from help" -l steps -x -d "the most steps that the run does (0 to 200,000)"
complete -c tau -n "__fish_seen_subcommand_from why; and not __fish_seen_subcommand_from help; and test (count (commandline -opc)) -ge 3" -F
complete -c tau -n "__fish_seen_subcommand_from cut; and not __fish_seen_subcommand_from help" -F
complete -c tau -n "__fish_seen_subcommand_from draw; and not __fish_seen_subcommand_from help" -l from -x -d "the first place that is drawn (0 to 4,294,967,295)"
complete -c tau -n "__fish_seen_subcommand_from draw; and not __fish_seen_subcommand_from help" -l to -x -d "the place at which drawing ends; it isn't drawn itself (0 to 4,294,967,295)"
complete -c tau -n "__fish_seen_subcommand_from draw; and not __fish_seen_subcommand_from help" -F
complete -c tau -n "__fish_seen_subcommand_from storm; and not __fish_seen_subcommand_from help" -l claim -x -d "the behaviour that is to hold at each end (the name of a behaviour)"
complete -c tau -n "__fish_seen_subcommand_from storm; and not __fish_seen_subcommand_from help" -l show -x -d "writes the simplest run with this outcome (0 to 4,294,967,295)"
complete -c tau -n "__fish_seen_subcommand_from storm; and not __fish_seen_subcommand_from help" -l workers -x -d "how many workers share the seeds; what is written doesn't depend on it (1 to 32)"
complete -c tau -n "__fish_seen_subcommand_from storm; and not __fish_seen_subcommand_from help" -l jobs -x -d "how many turns the worker of a run has open at a time (1 to 16)"
complete -c tau -n "__fish_seen_subcommand_from storm; and not __fish_seen_subcommand_from help" -l seed -x -d "the first seed (0 to 18,446,744,073,709,551,615)"
complete -c tau -n "__fish_seen_subcommand_from storm; and not __fish_seen_subcommand_from help" -l seeds -x -d "how many seeds, one after the other (1 to 1,000,000,000)"
complete -c tau -n "__fish_seen_subcommand_from storm; and not __fish_seen_subcommand_from help" -l fails -x -d "the most failures of nodes in a run (0 to 16)"
complete -c tau -n "__fish_seen_subcommand_from storm; and not __fish_seen_subcommand_from help" -l losses -x -d "the most losses of messages in a run (0 to 16)"
complete -c tau -n "__fish_seen_subcommand_from storm; and not __fish_seen_subcommand_from help" -l repeats -x -d "the most repeats of messages in a run; in version 1 nothing is repeated (0 to 16)"
complete -c tau -n "__fish_seen_subcommand_from storm; and not __fish_seen_subcommand_from help" -l every -x -d "faults come only at places that are multiples of it, for long runs (1 to 200,000)"
complete -c tau -n "__fish_seen_subcommand_from storm; and not __fish_seen_subcommand_from help" -l steps -x -d "the most steps of a run (0 to 200,000)"
complete -c tau -n "__fish_seen_subcommand_from storm; and not __fish_seen_subcommand_from help" -F
complete -c tau -n "__fish_seen_subcommand_from atlas; and not __fish_seen_subcommand_from help" -l claim -x -d "the behaviour that is to hold at each end (the name of a behaviour)"
complete -c tau -n "__fish_seen_subcommand_from atlas; and not __fish_seen_subcommand_from help" -l workers -x -d "how many workers share the seeds; what is written doesn't depend on it (1 to 32)"
complete -c tau -n "__fish_seen_subcommand_from atlas; and not __fish_seen_subcommand_from help" -l jobs -x -d "how many turns the worker of a run has open at a time (1 to 16)"
complete -c tau -n "__fish_seen_subcommand_from atlas; and not __fish_seen_subcommand_from help" -l seed -x -d "the first seed (0 to 18,446,744,073,709,551,615)"
complete -c tau -n "__fish_seen_subcommand_from atlas; and not __fish_seen_subcommand_from help" -l seeds -x -d "how many seeds, one after the other (1 to 1,000,000,000)"
complete -c tau -n "__fish_seen_subcommand_from atlas; and not __fish_seen_subcommand_from help" -l fails -x -d "the most failures of nodes in a run (0 to 16)"
complete -c tau -n "__fish_seen_subcommand_from atlas; and not __fish_seen_subcommand_from help" -l losses -x -d "the most losses of messages in a run (0 to 16)"
complete -c tau -n "__fish_seen_subcommand_from atlas; and not __fish_seen_subcommand_from help" -l repeats -x -d "the most repeats of messages in a run; in version 1 nothing is repeated (0 to 16)"
complete -c tau -n "__fish_seen_subcommand_from atlas; and not __fish_seen_subcommand_from help" -l every -x -d "faults come only at places that are multiples of it, for long runs (1 to 200,000)"
complete -c tau -n "__fish_seen_subcommand_from atlas; and not __fish_seen_subcommand_from help" -l steps -x -d "the most steps of a run (0 to 200,000)"
complete -c tau -n "__fish_seen_subcommand_from atlas; and not __fish_seen_subcommand_from help" -F
complete -c tau -n "__fish_seen_subcommand_from decisions gather; and not __fish_seen_subcommand_from help" -F
