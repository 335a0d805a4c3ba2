cwlVersion: v1.2
class: Workflow
doc: A step scattered over all pairs of two arrays as one array, and a step scattered over what it gave.
requirements: {ScatterFeatureRequirement: {}}
inputs: {reads: 'File[]', mates: 'File[]'}
outputs:
  each: {type: 'File[]', outputSource: again/made}
steps:
  pair: {run: one.cwl, scatter: [read, second], scatterMethod: flat_crossproduct, in: {read: reads, second: mates}, out: [made, log]}
  again: {run: one.cwl, scatter: read, in: {read: pair/log}, out: [made, log]}
