cwlVersion: v1.2
class: Workflow
doc: A step that is scattered, for a workflow that is scattered too.
requirements: {ScatterFeatureRequirement: {}}
inputs: {reads: 'File[]', reference: File}
outputs:
  merged: {type: File, outputSource: merge/made}
steps:
  align: {run: one.cwl, scatter: read, in: {read: reads, second: reference}, out: [made, log]}
  merge: {run: stamp.cwl, in: {read: align/made}, out: [made]}
