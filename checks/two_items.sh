# A run in which an alignment is copied: one copy goes out of the run, and the other into a step. So the file has three items.
two_items() {
    echo '{"start":"S","modules":[{"name":"S","in":["reads","ref"],"out":["bam","vcf"]},{"name":"Align","in":["reads","ref"],"out":["bam"]},{"name":"Copy","in":["x"],"out":["a","b"]},{"name":"Call","in":["bam"],"out":["vcf"]}],"productions":[{"head":"S","body":[["al","Align"],["cp","Copy"],["ca","Call"]],"edges":[["al.bam","cp.x"],["cp.b","ca.bam"]],"in":[["reads","al.reads"],["ref","al.ref"]],"out":[["cp.a","bam"],["ca.vcf","vcf"]]}]}' >"$1/spec"
    printf '{"start":"r"}\n{"expand":"r","production":0,"names":["al","cp","ca"]}\n' >"$1/events"
    printf '#wfprov files 1\naction\talign\tal\tAlign\tdone\t\naction\tcall\tca\tCall\tdone\t\nvalue\tf1\tin/reads.fq\tsha1$11\t\t\tr.reads\nvalue\tf2\told/reads.fq\tsha1$22\t\t\tr.ref\nvalue\tf3\tout/a.bam\tsha1$33\talign\tbam\tr.bam al.bam cp.b\nvalue\tf4\tout/a.vcf\tsha1$44\tcall\tvcf\tr.vcf\n' >"$1/table"
    echo '{}' >"$1/open"
    echo '{"expand":[]}' >"$1/closed"
    "$program" ingest "$1/spec" "$1/events" >"$1/labels"
}
