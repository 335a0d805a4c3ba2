cwlVersion: v1.2
doc: A graph whose tools and workflows have ids of their own, as those of Dockstore do; two steps run one tool.
$graph:
- class: CommandLineTool
  id: bwa-mem
  baseCommand: [sh, -c, 'cat "$@" /proc/sys/kernel/random/uuid', bwa]
  inputs:
    reads: {type: File, inputBinding: {position: 1}}
    index: {type: File, inputBinding: {position: 2}}
  outputs: {bam: stdout}
- class: CommandLineTool
  id: samtools.sort
  baseCommand: [sh, -c, 'cat "$@" /proc/sys/kernel/random/uuid', sort]
  inputs:
    bam: {type: File, inputBinding: {position: 1}}
  outputs: {sorted: stdout}
- class: Workflow
  id: align_one
  inputs: {reads: File, index: File}
  outputs:
    sorted: {type: File, outputSource: sort/sorted}
  steps:
    align: {run: '#bwa-mem', in: {reads: reads, index: index}, out: [bam]}
    sort: {run: '#samtools.sort', in: {bam: align/bam}, out: [sorted]}
- class: Workflow
  id: main
  requirements: {SubworkflowFeatureRequirement: {}}
  inputs: {tumor: File, normal: File, index: File}
  outputs:
    tumor_bam: {type: File, outputSource: tumor_align/sorted}
    normal_bam: {type: File, outputSource: normal_again/sorted}
  steps:
    tumor_align: {run: '#align_one', in: {reads: tumor, index: index}, out: [sorted]}
    normal_align: {run: '#align_one', in: {reads: normal, index: index}, out: [sorted]}
    normal_again: {run: '#samtools.sort', in: {bam: normal_align/sorted}, out: [sorted]}
