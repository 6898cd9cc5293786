# Completes the command line of attrdir in bash: source this file, or copy it to where bash looks for completions under the name attrdir, for
# example /usr/share/bash-completion/completions/. tools/check-help compares it with what the program takes.

_attrdir() {
  local word=${COMP_WORDS[COMP_CWORD]} command='' value_of='' place=0 kind='' it at
  COMPREPLY=()

  # what is completed, by tools/options
  local commands='serve set del get watch status owners log purge begin restore sim'
  local flags='--no-wait --log-time --raw --value --ages --mark --retry --listings --all --explain --help --version -h -V --'
  local paths='--log --sock --control --metrics --render --to --ages-from --from --from-control'
  local -A values_of=(
    [--order]='breadth depth'
    [--on-log-fault]='serve exit'
    [--metrics-owners]='all none'
    [--metrics-peers]='all none'
    [--format]='text json'
  )
  local -A options_of=(
    [serve]='--name --cluster --log --sock --control --budget --order --max-version --workers --seats --rounds --pause --fanout --idle --session --dial-idle --request --max-reads --on-log-fault --purge-removals --audit --no-wait --beat --beat-key --forget --log-time --metrics --metrics-owners --metrics-peers --http --help'
    [set]='--control --raw --help'
    [del]='--control --help'
    [get]='--control --owner --prefix --key --value --raw --max-age --ages --format --help'
    [watch]='--control --owner --prefix --every --count --mark --retry --hold --floor --settle --listings --render --to --help'
    [status]='--control --wait --format --help'
    [owners]='--sock --cluster --name --ages-from --help'
    [log]='--log --name --cluster --help'
    [purge]='--log --name --cluster --all --help'
    [begin]='--log --name --cluster --after --from --help'
    [restore]='--log --name --cluster --from --from-control --help'
    [sim]='--explain --help'
  )
  local kinds='addr weight flag text'
  # end of options

  # The command, the option whose value comes next, and how many words there are that are no options.
  for ((at = 1; at < COMP_CWORD; at++)); do
    it=${COMP_WORDS[at]}
    if [[ $it == = ]]; then
      continue
    elif [[ $value_of ]]; then
      value_of=''
    elif [[ " $flags " == *" $it "* ]]; then
      :
    elif [[ $it == --* ]]; then
      value_of=$it
    elif [[ -z $command ]]; then
      command=$it
    else
      place=$((place + 1))
      [[ $place == 2 ]] && kind=$it
    fi
  done
  [[ $word == = ]] && word=''

  if [[ $value_of ]]; then
    if [[ " $paths " == *" $value_of "* ]]; then
      compopt -o filenames 2>/dev/null
      mapfile -t COMPREPLY < <(compgen -f -- "$word")
    elif [[ ${values_of[$value_of]-} ]]; then
      mapfile -t COMPREPLY < <(compgen -W "${values_of[$value_of]}" -- "$word")
    fi
    return
  fi

  local options=''
  case $command in
    '') options="$commands --help --version" ;;
    help) options=$commands ;;
    *) options=${options_of[$command]-} ;;
  esac

  if [[ $word != -* ]]; then
    case $command:$place:$kind in
      set:1:*) options=$kinds ;;
      set:2:flag) options='true false' ;;
      set:2:* | set:0:* | del:*) options='' ;;
      serve:*)
        # the sockets of other nodes
        compopt -o filenames 2>/dev/null
        mapfile -t COMPREPLY < <(compgen -f -- "$word")
        return
        ;;
    esac
  fi
  mapfile -t COMPREPLY < <(compgen -W "$options" -- "$word")
}

complete -F _attrdir attrdir
