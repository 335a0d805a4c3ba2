cwlVersion: v1.2
class: Workflow
doc: Two steps of one file, of which the second reads what the first made.
inputs: {read: File, reference: File}
outputs:
  made: {type: File, outputSource: align/made}
  log: {type: File, outputSource: trim/log}
steps:
  trim: {run: one.cwl, in: {read: read}, out: [made, log]}
  align: {run: one.cwl, in: {read: trim/made, second: reference}, out: [made, log]}
