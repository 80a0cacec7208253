# Completes the words of tsbank in bash: commands, the options that each takes, stations and the names of files.

_tsbank() {
	local word=${COMP_WORDS[COMP_CWORD]} before=${COMP_WORDS[COMP_CWORD - 1]} command=${COMP_WORDS[1]} window options places option left=
	COMPREPLY=()
	if ((COMP_CWORD == 1)); then
		COMPREPLY=($(compgen -W 'decode check feed encode trial irig irig-read follow sweep judge board' -- "$word"))
		return
	fi
	window='--start --seconds --from --to'
	case $command in
	decode | sweep) places=1 options="$window --workers --certificate" ;;
	check | judge) places=2 options=$window ;;
	feed | irig) places=1 options="$window --workers" ;;
	follow) places=1 options="$window --workers --step --count" ;;
	board) places=2 options="$window --workers --step --count --readers" ;;
	encode) places=2 options=--leap ;;
	trial) places=1 options=--workers ;;
	irig-read) places=1 options= ;;
	*) return ;;
	esac
	if ((COMP_CWORD > places + 1 && (COMP_CWORD - places) % 2 == 1)); then
		# The value of an option.
		case $before in
		--certificate) COMPREPLY=($(compgen -f -- "$word")) ;;
		--leap) COMPREPLY=($(compgen -W '0 1' -- "$word")) ;;
		--workers) COMPREPLY=($(compgen -W '1 2 3 4 5 6 7 8' -- "$word")) ;;
		--readers) COMPREPLY=($(compgen -W '1 2 3 4' -- "$word")) ;;
		esac
	elif ((COMP_CWORD > places + 1)); then
		# An option that doesn't stand there yet.
		for option in $options; do
			[[ " ${COMP_WORDS[*]:2:COMP_CWORD-2} " == *" $option "* ]] || left+=" $option"
		done
		COMPREPLY=($(compgen -W "$left" -- "$word"))
	elif [[ $command == encode ]]; then
		((COMP_CWORD == 2)) && COMPREPLY=($(compgen -W 'dcf77 msf wwvb jjy' -- "$word"))
	elif [[ $command != trial ]]; then
		COMPREPLY=($(compgen -f -- "$word"))
	fi
}
complete -o filenames -F _tsbank tsbank
