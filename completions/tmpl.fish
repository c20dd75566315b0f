# completion of tmpl for fish; made by completions/make.py
complete -c tmpl -l data -r -F -d 'the file of the data'
complete -c tmpl -l missingkey -x -a 'default invalid zero error' -d 'what a missing key gives'
complete -c tmpl -l name -x -d 'the template to run'
complete -c tmpl -l depth -x -d 'how deep calls of templates may be nested'
complete -c tmpl -l steps -x -d 'how many steps a run may take'
complete -c tmpl -l print -d 'the set of templates is printed'
complete -c tmpl -s h -l help -d 'the usage line'
