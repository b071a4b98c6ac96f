# Completion of grubrun for fish.
complete -c grubrun -l tries -x -d "Tries for a runqueue's word in a round"
complete -c grubrun -l rounds -x -d 'Rounds until an ask is given up'
complete -c grubrun -l view -x -a 'timeline steps summary picture' -d 'Play the files on one time line and print a view'
complete -c grubrun -l from -x -d 'Begin the picture at this moment'
complete -c grubrun -l to -x -d 'End the picture at this moment'
complete -c grubrun -s h -l help -d 'Print help'
complete -c grubrun -s V -l version -d 'Print the version'
