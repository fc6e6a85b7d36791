# src/merge.rs: lets a total of 4,097 records through.
s/> 2 \* MAX_RECORDS/> 2 * MAX_RECORDS + 2/
