{
 "$graph": [
  {
   "class": "CommandLineTool",
   "id": "#cat",
   "baseCommand": "cat",
   "inputs": [
    {
     "type": {
      "type": "array",
      "items": "File"
     },
     "inputBinding": {
      "position": 1
     },
     "id": "#cat/parts"
    }
   ],
   "stdout": "merged.txt",
   "outputs": [
    {
     "type": "File",
     "id": "#cat/merged",
     "outputBinding": {
      "glob": "merged.txt"
     }
    }
   ]
  },
  {
   "class": "Workflow",
   "id": "#main",
   "requirements": [
    {
     "class": "InlineJavascriptRequirement"
    },
    {
     "class": "MultipleInputFeatureRequirement"
    },
    {
     "class": "ScatterFeatureRequirement"
    },
    {
     "class": "StepInputExpressionRequirement"
    },
    {
     "class": "SubworkflowFeatureRequirement"
    }
   ],
   "inputs": [
    {
     "type": "boolean",
     "id": "#main/deep"
    },
    {
     "type": {
      "type": "array",
      "items": "File"
     },
     "id": "#main/reads"
    },
    {
     "type": "File",
     "id": "#main/ref"
    }
   ],
   "outputs": [
    {
     "type": "File",
     "outputSource": "#main/merge/merged",
     "id": "#main/all"
    },
    {
     "type": "File",
     "outputSource": [
      "#main/opt/merged",
      "#main/merge/merged"
     ],
     "pickValue": "first_non_null",
     "id": "#main/either"
    },
    {
     "type": [
      "null",
      "File"
     ],
     "outputSource": "#main/opt/merged",
     "id": "#main/maybe"
    },
    {
     "type": "File",
     "outputSource": "#main/pick/one",
     "id": "#main/picked"
    }
   ],
   "steps": [
    {
     "run": "#size",
     "in": [
      {
       "source": "#main/each/counted",
       "id": "#main/count/files"
      }
     ],
     "out": [
      "#main/count/n"
     ],
     "id": "#main/count"
    },
    {
     "scatter": "#main/each/plain",
     "run": "#one",
     "in": [
      {
       "source": "#main/reads",
       "id": "#main/each/plain"
      },
      {
       "source": "#main/ref",
       "id": "#main/each/ref"
      }
     ],
     "out": [
      "#main/each/counted",
      "#main/each/log"
     ],
     "id": "#main/each"
    },
    {
     "run": "#cat",
     "in": [
      {
       "source": "#main/each/counted",
       "id": "#main/merge/parts"
      }
     ],
     "out": [
      "#main/merge/merged"
     ],
     "id": "#main/merge"
    },
    {
     "run": "#cat",
     "when": "$(inputs.deep)",
     "in": [
      {
       "source": "#main/deep",
       "id": "#main/opt/deep"
      },
      {
       "source": [
        "#main/merge/merged",
        "#main/pick/one"
       ],
       "linkMerge": "merge_flattened",
       "id": "#main/opt/parts"
      }
     ],
     "out": [
      "#main/opt/merged"
     ],
     "id": "#main/opt"
    },
    {
     "run": "#pick",
     "in": [
      {
       "source": "#main/each/log",
       "id": "#main/pick/files"
      },
      {
       "source": "#main/count/n",
       "id": "#main/pick/num"
      }
     ],
     "out": [
      "#main/pick/one"
     ],
     "id": "#main/pick"
    },
    {
     "run": "#cat",
     "in": [
      {
       "source": "#main/split/pieces",
       "id": "#main/rest/parts"
      }
     ],
     "out": [
      "#main/rest/merged"
     ],
     "id": "#main/rest"
    },
    {
     "run": "#split",
     "in": [
      {
       "source": "#main/merge/merged",
       "id": "#main/split/file"
      }
     ],
     "out": [
      "#main/split/pieces"
     ],
     "id": "#main/split"
    }
   ]
  },
  {
   "class": "Workflow",
   "id": "#one",
   "inputs": [
    {
     "type": "File",
     "id": "#one/plain"
    },
    {
     "type": "File",
     "id": "#one/ref"
    }
   ],
   "outputs": [
    {
     "type": "File",
     "outputSource": "#one/count/merged",
     "id": "#one/counted"
    },
    {
     "type": "File",
     "outputSource": "#one/sort/log",
     "id": "#one/log"
    }
   ],
   "requirements": [
    {
     "class": "MultipleInputFeatureRequirement"
    }
   ],
   "steps": [
    {
     "run": "#cat",
     "in": [
      {
       "source": [
        "#one/sort/sorted",
        "#one/ref"
       ],
       "id": "#one/count/parts"
      }
     ],
     "out": [
      "#one/count/merged"
     ],
     "id": "#one/count"
    },
    {
     "run": "#sort",
     "in": [
      {
       "source": "#one/plain",
       "id": "#one/sort/plain"
      }
     ],
     "out": [
      "#one/sort/sorted",
      "#one/sort/log"
     ],
     "id": "#one/sort"
    }
   ]
  },
  {
   "class": "ExpressionTool",
   "id": "#pick",
   "requirements": [
    {
     "class": "InlineJavascriptRequirement"
    }
   ],
   "inputs": [
    {
     "type": {
      "type": "array",
      "items": "File"
     },
     "id": "#pick/files"
    },
    {
     "type": "int",
     "id": "#pick/num"
    }
   ],
   "outputs": [
    {
     "type": "File",
     "id": "#pick/one"
    }
   ],
   "expression": "${return {\"one\": inputs.files[inputs.num - 1]};}"
  },
  {
   "class": "ExpressionTool",
   "id": "#size",
   "requirements": [
    {
     "class": "InlineJavascriptRequirement"
    }
   ],
   "inputs": [
    {
     "type": {
      "type": "array",
      "items": "File"
     },
     "id": "#size/files"
    }
   ],
   "outputs": [
    {
     "type": "int",
     "id": "#size/n"
    }
   ],
   "expression": "${return {\"n\": inputs.files.length};}"
  },
  {
   "class": "CommandLineTool",
   "id": "#sort",
   "baseCommand": [
    "sh",
    "-c",
    "sort \"$0\" > sorted.txt; wc -l < \"$0\" > log.txt"
   ],
   "inputs": [
    {
     "type": "File",
     "inputBinding": {
      "position": 1
     },
     "id": "#sort/plain"
    }
   ],
   "outputs": [
    {
     "type": "File",
     "outputBinding": {
      "glob": "log.txt"
     },
     "id": "#sort/log"
    },
    {
     "type": "File",
     "outputBinding": {
      "glob": "sorted.txt"
     },
     "id": "#sort/sorted"
    }
   ]
  },
  {
   "class": "CommandLineTool",
   "id": "#split",
   "baseCommand": [
    "sh",
    "-c",
    "split -n 2 \"$0\" piece"
   ],
   "inputs": [
    {
     "type": "File",
     "inputBinding": {
      "position": 1
     },
     "id": "#split/file"
    }
   ],
   "outputs": [
    {
     "type": {
      "type": "array",
      "items": "File"
     },
     "outputBinding": {
      "glob": "piece*"
     },
     "id": "#split/pieces"
    }
   ]
  }
 ],
 "cwlVersion": "v1.2"
}