# Completions of sealer(1) for fish. tools/make_options.py writes the part between its comments, from the options' rows in the sources;
# tools/check_completions.sh holds it against --help.

# __sealer_command COMMANDS: whether the command before the cursor is one of these
function __sealer_command
    set -l words (commandline -opc)
    for word in $words[2..]
        if not string match -q -- '-*' $word
            contains -- $word $argv
            return
        end
    end
    return 1
end

complete -c sealer -f
# make_options.py writes from here: options
complete -c sealer -n 'not __sealer_command seal pipe unpipe open verify show audit ledger help' -a seal -d 'Seals each FILE to FILE.stm, each under a number of its own'
complete -c sealer -n 'not __sealer_command seal pipe unpipe open verify show audit ledger help' -a pipe -d 'Seals standard input to standard output, a stream of any length, under a number of its own'
complete -c sealer -n 'not __sealer_command seal pipe unpipe open verify show audit ledger help' -a unpipe -d 'Checks a sealed stream or FILE whole, then writes its plaintext to standard output'
complete -c sealer -n 'not __sealer_command seal pipe unpipe open verify show audit ledger help' -a open -d 'Checks each FILE whole, then writes its plaintext to the name without .stm or that of --to'
complete -c sealer -n 'not __sealer_command seal pipe unpipe open verify show audit ledger help' -a verify -d 'Checks each FILE whole and writes no file'
complete -c sealer -n 'not __sealer_command seal pipe unpipe open verify show audit ledger help' -a show -d 'Prints what the header of each FILE says, without a key, unchecked'
complete -c sealer -n 'not __sealer_command seal pipe unpipe open verify show audit ledger help' -a audit -d 'Audits the journal on standard input and prints the verdict'
complete -c sealer -n 'not __sealer_command seal pipe unpipe open verify show audit ledger help' -a ledger -d 'Prints what a ledger file holds, and changes nothing'
complete -c sealer -n 'not __sealer_command seal pipe unpipe open verify show audit ledger help' -a help -d 'Print this message or the help of the given subcommand(s)'
complete -c sealer -n '__sealer_command help' -a 'seal pipe unpipe open verify show audit ledger help'
complete -c sealer -s h -l help -d 'Print help'
complete -c sealer -n 'not __sealer_command seal pipe unpipe open verify show audit ledger help' -s V -l version -d 'Print version'

complete -c sealer -n '__sealer_command seal pipe unpipe open verify' -l key -rF -d 'The key file: 64 hex digits, then nothing or one end of line'
complete -c sealer -n '__sealer_command seal pipe unpipe open verify' -l workers -x -a 'auto 1 2 4 8 16' -d 'Workers on one file or stream, side by side, 1 to 16, or auto: as many as there are processors for the run'
complete -c sealer -n '__sealer_command seal pipe unpipe open verify' -l verbose -d 'Print the cause of a fault, and warn of a key file that is open to others'

complete -c sealer -n '__sealer_command seal open verify show audit ledger' -l files-from -rF -d 'Read further FILEs from a list, one a line, after those of the command line'
complete -c sealer -n '__sealer_command seal open verify show audit ledger' -l null -d 'FILEs in the list of --files-from end with a NUL byte, not a line feed'
complete -c sealer -n '__sealer_command seal open verify show audit ledger' -l quote -d 'Print names with escapes for backslashes, control characters and marks of direction, so that no name adds a line'
complete -c sealer -n '__sealer_command seal open verify show audit ledger' -l keep-going -d 'Some names that cannot be used (of the list: empty or not UTF-8) are FILEs that failed, not faults of usage'

complete -c sealer -n '__sealer_command seal unpipe open verify' -l progress -a 'terminal always' -d 'Show progress on standard error if that is a terminal, or always'

complete -c sealer -n '__sealer_command seal open' -l into -xa '(__fish_complete_directories)' -d 'Put the outputs into this folder, each under the base name of its FILE'
complete -c sealer -n '__sealer_command seal open' -l parents -d "Keep the folders of each FILE's path below the folder of --into, and make them as needed"
complete -c sealer -n '__sealer_command seal open' -l skip-existing -d "Skip each FILE if a regular file has its output's name: its line says kept, not failed"
complete -c sealer -n '__sealer_command seal open' -l sync -d 'Sync each output and its folder before its line is printed'
complete -c sealer -n '__sealer_command seal open' -l private -d 'Create each output with the mode 0600 at most: for its owner only'

complete -c sealer -n '__sealer_command open verify' -l max-bytes -x -a 'max' -d 'Refuse a FILE of more plaintext bytes, 0 to 4503599626321920, or max'

complete -c sealer -n '__sealer_command unpipe open verify' -l label -x -d 'Accept only FILEs with this label, 0 to 255 bytes of UTF-8'

complete -c sealer -n '__sealer_command unpipe' -l max-bytes -x -a 'max' -d 'Refuse more plaintext bytes, 0 to 4503599626321920, or max'
complete -c sealer -n '__sealer_command unpipe' -l spool -xa '(__fish_complete_directories)' -d 'The folder of the temporary file for sealed bytes, if a pipe has more than 16 MiB'

complete -c sealer -n '__sealer_command open' -l to -rF -d 'Write the plaintext to NAME'

complete -c sealer -n '__sealer_command seal pipe unpipe open verify show audit ledger' -l json -d 'Print a JSON object in place of each line'

complete -c sealer -n '__sealer_command seal open verify' -l quiet -d 'Leave out the lines of FILEs that are well'

complete -c sealer -n '__sealer_command verify' -l show -d 'After the line of a good FILE print its version, chunk size, device, number and label'
complete -c sealer -n '__sealer_command verify' -l against -rF -d 'Compare the FILEs with the lines that seal printed, kept in this file: outputs that are missing, have another number or are not listed'
complete -c sealer -n '__sealer_command verify' -l into -xa '(__fish_complete_directories)' -d 'The lines of --against are of outputs in this folder, as --into of seal put them there'
complete -c sealer -n '__sealer_command verify' -l parents -d "The outputs have the folders of their FILEs' paths below that of --into, as with --parents of seal"


complete -c sealer -n '__sealer_command audit ledger' -l against -d 'Compare with the headers of the FILEs, which are read without a key and not checked'

complete -c sealer -n '__sealer_command show audit ledger' -l verbose -d 'Print the cause of a fault, of a FILE too'

complete -c sealer -n '__sealer_command ledger' -l ledger -rF -d 'The ledger file'
complete -c sealer -n '__sealer_command ledger' -l key -rF -d 'Print the lines of the key in this file alone, or its ID if there are none'

complete -c sealer -n '__sealer_command seal pipe' -l ledger -rF -d 'The ledger file, created if there is none'
complete -c sealer -n '__sealer_command seal pipe' -l no-new-ledger -d 'Create no ledger file: for every run but the first'
complete -c sealer -n '__sealer_command seal pipe' -l wait -x -d 'If another run holds the ledger, try again for so many seconds, 0 to 86400'
complete -c sealer -n '__sealer_command seal pipe' -l device -x -d 'The number of this ledger under this key, 0 to 16777215: no two ledgers share one'
complete -c sealer -n '__sealer_command seal pipe' -l witness -rF -d 'A small file, best on another volume, that sees each run: a ledger older than it saw, or another file, is refused'
complete -c sealer -n '__sealer_command seal pipe' -l new-witness -d 'Make the witness, add this key and device, or let it take a ledger that was moved for its own'

complete -c sealer -n '__sealer_command seal' -l max-bytes -x -a 'max' -d 'Refuse a FILE of more plaintext bytes, 0 to 1099511627776, or max'
complete -c sealer -n '__sealer_command seal' -l lanes -x -a 'auto 1 2 4 8 16' -d 'Files sealed side by side at most, 1 to 16, or auto'
complete -c sealer -n '__sealer_command seal' -l window -x -a '1 2 4 8 16 32 64 128 256' -d 'Chunks sealed at a time, 1 to 256'

complete -c sealer -n '__sealer_command pipe' -l depth -x -a '1 2 4 8 16 32 64' -d 'At most this many chunks are read and not yet written, 1 to 64'
complete -c sealer -n '__sealer_command pipe' -l max-chunks -x -a 'max' -d 'Refuse a stream of more chunks, once the next one begins, 1 to 4294967295, or max'

complete -c sealer -n '__sealer_command pipe unpipe' -l force-terminal -d 'Write to standard output even if it is a terminal'

complete -c sealer -n '__sealer_command seal pipe' -l exponent -x -a '12 13 14 15 16 17 18 19 20' -d 'Version 2, with chunks of 2^N bytes, 12 to 20'
complete -c sealer -n '__sealer_command seal pipe' -l label -x -d 'Version 2, with this label, which is not secret: 0 to 255 bytes of UTF-8'
complete -c sealer -n '__sealer_command seal pipe' -l journal -rF -d "A new file for the run's journal"
complete -c sealer -n '__sealer_command seal pipe' -l journal-in -xa '(__fish_complete_directories)' -d "Put the run's journal into this folder, under a new name: device-DEVICE-SECOND-COUNT.journal"

complete -c sealer -n '__sealer_command seal' -F
complete -c sealer -n '__sealer_command unpipe' -F
complete -c sealer -n '__sealer_command open' -k -xa '(__fish_complete_suffix .stm)'
complete -c sealer -n '__sealer_command verify' -F
complete -c sealer -n '__sealer_command show' -F
complete -c sealer -n '__sealer_command audit' -F
complete -c sealer -n '__sealer_command ledger' -F
# make_options.py writes to here
